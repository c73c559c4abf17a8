/* Makes one call of read, pread, write, close or fsync answer otherwise, for the tests of the programs and of the examples.
 *
 *     cc -shared -fPIC -o failing.so tests/failing.c
 *     LD_PRELOAD=./failing.so FAIL="CALL DESCRIPTOR WHICH ANSWER" PROGRAM ..
 *
 * The call number WHICH, from 1 on, of that function on that descriptor gives ANSWER: an error number with a minus sign, or how many bytes it moves at
 * most. A WHICH with a plus sign behind it stands for that call and all after it. An fsync is of DESCRIPTOR where it is of the file that this has, by whatever
 * descriptor: a program that ends its standard output opens that file once more.
 * The C library's own streams call none of these by name. So standard input and output, and files that fopen opens, become streams that do. What is written
 * has no buffer, so that fwrite fails where a write does. /dev/full serves where fflush or fclose must fail. */
#define _GNU_SOURCE
#include <errno.h>
#include <fcntl.h>
#include <stdint.h>
#include <stdio.h>
#include <stdlib.h>
#include <string.h>
#include <sys/stat.h>
#include <sys/syscall.h>
#include <sys/types.h>
#include <unistd.h>

static int calls;

/* Whether this is the call that is meant, and what it answers. */
static int meant(const char *call, int fd, long *answer) {
    char name[16], later[2] = "";
    int descriptor, which;
    const char *words = getenv("FAIL");
    if (words == NULL)
        return 0;
    if (sscanf(words, "%15s %d %d%1[+] %ld", name, &descriptor, &which, later, answer) != 5 && sscanf(words, "%15s %d %d %ld", name, &descriptor, &which, answer) != 4) {
        abort();
    }
    if (strcmp(name, call) != 0 || descriptor != fd)
        return 0;
    calls++;
    return calls == which || (later[0] == '+' && calls > which);
}

/* Refuses with an error number, or lowers the length. */
static int refused(const char *call, int fd, size_t *length) {
    long answer;
    if (!meant(call, fd, &answer))
        return 0;
    if (answer < 0) {
        errno = (int) -answer;
        return 1;
    }
    if ((size_t) answer < *length)
        *length = (size_t) answer;
    return 0;
}

ssize_t read(int fd, void *buffer, size_t length) {
    return refused("read", fd, &length) ? -1 : syscall(SYS_read, fd, buffer, length);
}

ssize_t pread(int fd, void *buffer, size_t length, off_t offset) {
    return refused("pread", fd, &length) ? -1 : syscall(SYS_pread64, fd, buffer, length, offset);
}

ssize_t write(int fd, const void *buffer, size_t length) {
    return refused("write", fd, &length) ? -1 : syscall(SYS_write, fd, buffer, length);
}

int close(int fd) {
    size_t none = 0;
    return refused("close", fd, &none) ? -1 : (int) syscall(SYS_close, fd);
}

/* Whether two descriptors have one file. */
static int same_file(int one, int other) {
    struct stat first, second;
    return fstat(one, &first) == 0 && fstat(other, &second) == 0 && first.st_dev == second.st_dev && first.st_ino == second.st_ino;
}

int fsync(int fd) {
    size_t none = 0;
    int other;
    for (other = 0; other < 3; other++) {
        if (same_file(fd, other) && refused("fsync", other, &none))
            return -1;
    }
    return (int) syscall(SYS_fsync, fd);
}

static ssize_t stream_read(void *fd, char *buffer, size_t length) {
    return read((int) (intptr_t) fd, buffer, length);
}

/* What was not taken is written again, as the C library does. */
static ssize_t stream_write(void *fd, const char *buffer, size_t length) {
    size_t done = 0;
    while (done < length) {
        ssize_t written = write((int) (intptr_t) fd, buffer + done, length - done);
        if (written <= 0)
            break;
        done += (size_t) written;
    }
    return (ssize_t) done;
}

static int stream_close(void *fd) {
    return close((int) (intptr_t) fd);
}

static FILE *stream(int fd, const char *mode) {
    cookie_io_functions_t by_name = {stream_read, stream_write, NULL, stream_close};
    FILE *file = fopencookie((void *) (intptr_t) fd, mode, by_name);
    if (file == NULL)
        abort();
    if (mode[0] == 'w')
        setvbuf(file, NULL, _IONBF, 0);
    return file;
}

FILE *fopen(const char *path, const char *mode) {
    int fd = open(path, mode[0] == 'r' ? O_RDONLY : O_WRONLY | O_CREAT | O_TRUNC, 0666);
    return fd < 0 ? NULL : stream(fd, mode);
}

__attribute__((constructor)) static void streams(void) {
    stdin = stream(0, "r");
    stdout = stream(1, "w");
}
