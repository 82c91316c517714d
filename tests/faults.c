// Preloaded by faults.py: refuses one call of the system, and counts them. RX_FAULT is `KIND N`: the
// N-th allocation or all from it on (`alloc`, `allocs`), or the N-th call of a file or a socket failing
// (`call`), moving one byte (`short`), or moving half of its bytes before the program is killed within it
// (`kill`). Without it nothing is refused. At the end both counts are written to the file that RX_COUNTS
// names.
#define _GNU_SOURCE
#include <dlfcn.h>
#include <errno.h>
#include <poll.h>
#include <signal.h>
#include <stdio.h>
#include <stdlib.h>
#include <string.h>
#include <sys/socket.h>
#include <unistd.h>

enum kind { NONE, ALLOC, ALLOCS, CALL, SHORT, KILL };

static enum kind kind;
static long target, allocs, calls;
static int known;

static void know(void) {
    if (known) return;
    known = 1;
    const char *fault = getenv("RX_FAULT");
    char word[8];
    if (!fault || sscanf(fault, "%7s %ld", word, &target) != 2) return;
    kind = !strcmp(word, "alloc") ? ALLOC : !strcmp(word, "allocs") ? ALLOCS
        : !strcmp(word, "call") ? CALL : !strcmp(word, "short") ? SHORT : KILL;
}

extern void *__libc_malloc(size_t), *__libc_calloc(size_t, size_t);
extern void *__libc_realloc(void *, size_t), *__libc_memalign(size_t, size_t);

static int refused(void) {
    know();
    allocs++;
    if ((kind == ALLOC && allocs == target) || (kind == ALLOCS && allocs >= target)) {
        errno = ENOMEM;
        return 1;
    }
    return 0;
}

void *malloc(size_t n) { return refused() ? NULL : __libc_malloc(n); }
void *calloc(size_t n, size_t m) { return refused() ? NULL : __libc_calloc(n, m); }
void *realloc(void *p, size_t n) { return refused() ? NULL : __libc_realloc(p, n); }
void *aligned_alloc(size_t a, size_t n) { return refused() ? NULL : __libc_memalign(a, n); }
int posix_memalign(void **p, size_t a, size_t n) {
    return refused() || !(*p = __libc_memalign(a, n)) ? ENOMEM : 0;
}

// What moves bytes is killed once half of them are moved, all else before it does anything.
static int failed(int moves) {
    know();
    calls++;
    if (kind == KILL && calls == target && !moves) raise(SIGKILL);
    if (kind != CALL || calls != target) return 0;
    errno = EIO;
    return 1;
}

static size_t most(size_t n) {
    if (calls != target || !n) return n;
    return kind == SHORT ? 1 : kind == KILL ? n / 2 : n;
}

static ssize_t moved(ssize_t n) {
    if (kind == KILL && calls == target) raise(SIGKILL);
    return n;
}

#define NEXT(f) ((__typeof__(&f))dlsym(RTLD_NEXT, #f))
#define MOVES(f, params, before, after) \
    ssize_t f params { return failed(1) ? -1 : moved(NEXT(f) (before, most(n) after)); }
#define COMMA ,
MOVES(read, (int d, void *b, size_t n), d COMMA b, )
MOVES(write, (int d, const void *b, size_t n), d COMMA b, )
MOVES(pread, (int d, void *b, size_t n, off_t o), d COMMA b, COMMA o)
MOVES(pwrite, (int d, const void *b, size_t n, off_t o), d COMMA b, COMMA o)
MOVES(pread64, (int d, void *b, size_t n, off_t o), d COMMA b, COMMA o)
MOVES(pwrite64, (int d, const void *b, size_t n, off_t o), d COMMA b, COMMA o)
MOVES(recv, (int d, void *b, size_t n, int f), d COMMA b, COMMA f)
MOVES(send, (int d, const void *b, size_t n, int f), d COMMA b, COMMA f)
int fsync(int d) { return failed(0) ? -1 : NEXT(fsync)(d); }
int fdatasync(int d) { return failed(0) ? -1 : NEXT(fdatasync)(d); }
int socket(int f, int t, int p) { return failed(0) ? -1 : NEXT(socket)(f, t, p); }
int connect(int d, const struct sockaddr *a, socklen_t n) { return failed(0) ? -1 : NEXT(connect)(d, a, n); }
int poll(struct pollfd *f, nfds_t n, int t) { return failed(0) ? -1 : NEXT(poll)(f, n, t); }
int setsockopt(int d, int l, int o, const void *v, socklen_t n) {
    return failed(0) ? -1 : NEXT(setsockopt)(d, l, o, v, n);
}
int getsockopt(int d, int l, int o, void *v, socklen_t *n) {
    return failed(0) ? -1 : NEXT(getsockopt)(d, l, o, v, n);
}
int accept4(int d, struct sockaddr *a, socklen_t *n, int f) {
    return failed(0) ? -1 : NEXT(accept4)(d, a, n, f);
}

__attribute__((destructor)) static void tell(void) {
    const char *path = getenv("RX_COUNTS");
    FILE *file = path ? fopen(path, "w") : NULL;
    if (!file) return;
    long counted[2] = {allocs, calls};
    fprintf(file, "%ld %ld\n", counted[0], counted[1]);
    fclose(file);
}
