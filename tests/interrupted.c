/* Stops examples/correct.c before the nth of its calls that leave something on the disk, with status 99; n is the environment's STOP_AT, 0 for none. A
 * write that is stopped has written half of its bytes. No disk is waited for: what a stopped program has done, the next one sees. Linked in by
 * tests/example_correct, with --wrap for each of these calls.
 */
#include <stdio.h>
#include <stdlib.h>
#include <sys/mman.h>
#include <sys/stat.h>
#include <unistd.h>

int __real_mkdir(const char *path, mode_t mode);
int __real_rmdir(const char *path);
int __real_unlink(const char *path);
int __real_rename(const char *from, const char *to);
ssize_t __real_write(int file, const void *bytes, size_t length);

static int stops(void) {
    static long calls;
    const char *at = getenv("STOP_AT");
    calls++;
    return at != NULL && atol(at) == calls;
}

static void count(void) {
    if (stops()) _exit(99);
}

int __wrap_mkdir(const char *path, mode_t mode) {
    count();
    return __real_mkdir(path, mode);
}

int __wrap_rmdir(const char *path) {
    count();
    return __real_rmdir(path);
}

int __wrap_unlink(const char *path) {
    count();
    return __real_unlink(path);
}

int __wrap_rename(const char *from, const char *to) {
    count();
    return __real_rename(from, to);
}

int __wrap_fsync(int file) {
    count();
    return file < 0;
}

int __wrap_msync(void *at, size_t length, int flags) {
    count();
    return at == NULL || length == 0 || flags != MS_SYNC;
}

ssize_t __wrap_write(int file, const void *bytes, size_t length) {
    if (!stops()) return __real_write(file, bytes, length);
    _exit(__real_write(file, bytes, length / 2) < 0 ? 98 : 99);
}
