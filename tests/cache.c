// Preloaded by edges.py: a disk behind a page cache, of the file that RX_JOURNAL names. What is
// written there goes to the file, as to a cache, and each sync that succeeds takes the pages written
// since to the file that RX_DISK names. The sync of the number RX_FAIL fails, and as Linux has it
// those pages count as written then; it took none of them, or all where RX_TAKEN is there. A page
// that was written and not synced is so for the next run too: a file beside the disk tells which.
#define _GNU_SOURCE
#include <dlfcn.h>
#include <errno.h>
#include <fcntl.h>
#include <stdio.h>
#include <stdlib.h>
#include <sys/mman.h>
#include <sys/stat.h>
#include <unistd.h>

enum { PAGE = 4096, PAGES = 1 << 12 };

static char *dirty;
static long syncs;

static void know(void) {
    char path[PAGE];
    if (dirty) return;
    if (snprintf(path, PAGE, "%s.dirty", getenv("RX_DISK")) >= PAGE) abort();
    int file = open(path, O_RDWR | O_CREAT, 0600);
    if (file < 0 || ftruncate(file, PAGES)) abort();
    dirty = mmap(NULL, PAGES, PROT_READ | PROT_WRITE, MAP_SHARED, file, 0);
    if (dirty == MAP_FAILED) abort();
    close(file);
}

static int is_journal(int file) {
    struct stat its, wanted;
    const char *path = getenv("RX_JOURNAL");
    return path && !stat(path, &wanted) && !fstat(file, &its) && its.st_ino == wanted.st_ino
        && its.st_dev == wanted.st_dev;
}

static ssize_t written(int file, const void *bytes, size_t count, off_t at) {
    ssize_t (*next)(int, const void *, size_t, off_t) = dlsym(RTLD_NEXT, "pwrite64");
    ssize_t done = next(file, bytes, count, at);
    if (done <= 0 || !is_journal(file)) return done;
    know();
    for (off_t page = at / PAGE; page <= (at + done - 1) / PAGE; page++) {
        if (page >= PAGES) abort();
        dirty[page] = 1;
    }
    return done;
}

ssize_t pwrite64(int file, const void *bytes, size_t count, off_t at) { return written(file, bytes, count, at); }
ssize_t pwrite(int file, const void *bytes, size_t count, off_t at) { return written(file, bytes, count, at); }

static void take(int file, off_t page, int disk) {
    char bytes[PAGE];
    ssize_t (*read_at)(int, void *, size_t, off_t) = dlsym(RTLD_NEXT, "pread64");
    ssize_t (*write_at)(int, const void *, size_t, off_t) = dlsym(RTLD_NEXT, "pwrite64");
    ssize_t count = read_at(file, bytes, PAGE, page * PAGE);
    if (count < 0 || write_at(disk, bytes, count, page * PAGE) != count) abort();
}

static int synced(int file, const char *name) {
    int (*next)(int) = dlsym(RTLD_NEXT, name);
    if (!is_journal(file)) return next(file);
    know();
    const char *fail = getenv("RX_FAIL");
    int fails = fail && ++syncs == atol(fail);
    int disk = open(getenv("RX_DISK"), O_WRONLY | O_CREAT, 0600);
    if (disk < 0) abort();
    for (off_t page = 0; page < PAGES; page++) {
        if (dirty[page] && (!fails || getenv("RX_TAKEN"))) take(file, page, disk);
        dirty[page] = 0;
    }
    close(disk);
    if (!fails) return next(file);
    errno = EIO;
    return -1;
}

int fsync(int file) { return synced(file, "fsync"); }
int fdatasync(int file) { return synced(file, "fdatasync"); }
