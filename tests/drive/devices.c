/*
 * Stands before the C library's read and write, for standard input and output alone: devices that give and take few bytes at a
 * time, and of which one call goes wrong. The calls behind that one are as before it. The environment says:
 *
 *   AT_MOST        how many bytes a call gives or takes at most
 *   WRONG_READ     the number of the read that fails, counted from 1; none where it is not set
 *   WRONG_WRITE    the number of the write that goes wrong; none where it is not set
 *   TAKES_NOTHING  is set where that write takes no byte, and does not fail
 */
#define _GNU_SOURCE
#include <errno.h>
#include <stdlib.h>
#include <sys/syscall.h>
#include <unistd.h>

static size_t at_most;
static unsigned long reads, writes, wrong_read, wrong_write;
static int takes_nothing;

static unsigned long number_in(const char *name) {
    const char *text = getenv(name);
    return text != NULL ? strtoul(text, NULL, 10) : 0;
}

__attribute__((constructor)) static void begin(void) {
    at_most = number_in("AT_MOST");
    wrong_read = number_in("WRONG_READ");
    wrong_write = number_in("WRONG_WRITE");
    takes_nothing = getenv("TAKES_NOTHING") != NULL;
}

static size_t few(size_t size) {
    return size < at_most ? size : at_most;
}

ssize_t read(int file, void *bytes, size_t size) {
    if (file != STDIN_FILENO)
        return syscall(SYS_read, file, bytes, size);
    if (++reads == wrong_read) {
        errno = EIO;
        return -1;
    }
    return syscall(SYS_read, file, bytes, few(size));
}

ssize_t write(int file, const void *bytes, size_t size) {
    if (file != STDOUT_FILENO)
        return syscall(SYS_write, file, bytes, size);
    if (++writes == wrong_write) {
        errno = EIO;
        return takes_nothing ? 0 : -1;
    }
    return syscall(SYS_write, file, bytes, few(size));
}

ssize_t __write(int file, const void *bytes, size_t size) {
    return write(file, bytes, size);
}
