// The calls of the system that the program makes. Each goes to the host, which answers -errno where it fails.
typedef unsigned long size_t;
typedef unsigned char byte;
#define HOST(name) __attribute__((import_module("host"), import_name(#name)))
HOST(read) long host_read(int file, byte *at, size_t n);
HOST(write) long host_write(int file, const byte *at, size_t n);
HOST(pread) long host_pread(int file, byte *at, size_t n, long from);
HOST(pwrite) long host_pwrite(int file, const byte *at, size_t n, long to);
HOST(open) long host_open(const byte *path, size_t n);
HOST(close) long host_close(int file);
HOST(sync) long host_sync(int file);
HOST(arg) long host_arg(size_t i, byte *at, size_t n);
HOST(socket) long host_socket(void);
HOST(dial) long host_dial(int file, long port);
HOST(dialled) long host_dialled(int file, long ms);
HOST(send) long host_send(int file, const byte *at, size_t n, long ms);
HOST(receive) long host_receive(int file, byte *at, size_t n, long ms);
HOST(now) long host_now(void);

static int error;

static long told(long answer) {
    if (answer >= 0) return answer;
    error = (int)-answer;
    return -1;
}

long read(int file, byte *at, size_t n) { return told(host_read(file, at, n)); }
long write(int file, const byte *at, size_t n) { return told(host_write(file, at, n)); }
long pread(int file, byte *at, size_t n, long from) { return told(host_pread(file, at, n, from)); }
long pwrite(int file, const byte *at, size_t n, long to) { return told(host_pwrite(file, at, n, to)); }
int fsync(int file) { return (int)told(host_sync(file)); }
int fdatasync(int file) { return (int)told(host_sync(file)); }
int close(int file) { return (int)told(host_close(file)); }

int open(const byte *path, int flags, ...) {
    size_t n = 0;
    while (path[n]) n++;
    return (int)told(host_open(path, n));
}

// The host has the journal for itself as long as it runs, and a file there has no mode.
int flock(int file, int how) { return 0; }
int fchmod(int file, int mode) { return 0; }
// So the journal that is open is what stands at its path: both have the number 0, which is there already.
int statx(int folder, const byte *path, int flags, unsigned asked, void *at) { return 0; }

// The program reads and writes at places that it names, and cuts nothing off.
#define ENOSYS 38
long lseek(int file, long to, int whence) { return told(-ENOSYS); }
int ftruncate(int file, long n) { return (int)told(-ENOSYS); }

// A page dials by WebSocket, whose URL the host has from the page. It serves nobody.
int bind(int file, const void *address, unsigned n) { return (int)told(-ENOSYS); }
int listen(int file, int waiting) { return (int)told(-ENOSYS); }
int accept4(int file, void *address, void *n, int flags) { return (int)told(-ENOSYS); }
int socket(int family, int kind, int protocol) { return (int)told(host_socket()); }

// An address has its port in the bytes 2 and 3. The host begins to dial, and the program waits by poll.
#define EINPROGRESS 115
int connect(int file, const byte *address, unsigned n) {
    long begun = host_dial(file, address[2] << 8 | address[3]);
    return (int)told(begun < 0 ? begun : -EINPROGRESS);
}

// A socket that didn't come up is told by poll, and then by getsockopt. The program polls one, to dial.
#define POLLOUT 4
#define POLLERR 8
static long refused;
struct polled { int file; short asked, came; };
int poll(struct polled *it, unsigned long n, int milliseconds) {
    long answer = host_dialled(it->file, milliseconds);
    refused = answer < 0 ? -answer : 0;
    it->came = answer == 0 ? 0 : answer < 0 ? POLLOUT | POLLERR : POLLOUT;
    return answer != 0;
}

#define SOL_SOCKET 1
#define SO_ERROR 4
#define SO_RCVTIMEO 20
#define SO_SNDTIMEO 21
int getsockopt(int file, int level, int name, int *at, unsigned *n) {
    if (level != SOL_SOCKET || name != SO_ERROR) return (int)told(-ENOSYS);
    *at = (int)refused;
    return 0;
}

// The program has one connection at a time, and gives it a limit before it waits. 0 is forever.
static long receive_ms = -1, send_ms = -1;
int setsockopt(int file, int level, int name, const long *at, unsigned n) {
    if (level == SOL_SOCKET && (name == SO_RCVTIMEO || name == SO_SNDTIMEO)) {
        long ms = at[0] * 1000 + at[1] / 1000;
        *(name == SO_RCVTIMEO ? &receive_ms : &send_ms) = ms ? ms : -1;
    }
    return 0;
}

int rattle_set_nonblocking(int file, _Bool on) { return 0; }
long recv(int file, byte *at, size_t n, int flags) { return told(host_receive(file, at, n, receive_ms)); }
long send(int file, const byte *at, size_t n, int flags) { return told(host_send(file, at, n, send_ms)); }

// Only limits ask for the time, and only a door that fails sleeps.
int nanosleep(const long *asked, long *left) { return 0; }
int clock_gettime(int clock, long *at) {
    long ms = host_now();
    at[0] = ms / 1000;
    at[1] = ms % 1000 * 1000000;
    return 0;
}

long rattle_arg(size_t i, byte *at, size_t n) { return host_arg(i, at, n); } // -1: none, -2: no room
long rattle_env_at(size_t i, byte *at, size_t n) { return -1; }
long rattle_env(const byte *name, byte *at, size_t n) { return -1; }
int rattle_errno(void) { return error; }
void rattle_set_errno(int number) { error = number; }
size_t __sysv_signal(int number, size_t handler) { return 0; }
int __xpg_strerror_r(int number, byte *at, size_t n) {
    if (n) *at = 0;
    return 0;
}
