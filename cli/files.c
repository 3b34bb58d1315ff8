/* Files, read no further than needed; standard output. */
#define _POSIX_C_SOURCE 200809L
#include "files.h"

#include <errno.h>
#include <fcntl.h>
#include <signal.h>
#include <unistd.h>

int prepare_files(void)
{
    return signal(SIGPIPE, SIG_IGN) == SIG_ERR || signal(SIGXFSZ, SIG_IGN) == SIG_ERR ? -1 : 0;
}

/* Reads from an open file to its end or to the most bytes. */
static int read_all(int fd, uint8_t *bytes, size_t most, size_t *length)
{
    *length = 0;
    while (*length < most) {
        ssize_t got = read(fd, bytes + *length, most - *length);
        if (got == 0)
            return 0;
        if (got > 0)
            *length += (size_t)got;
        else if (errno != EINTR)
            return -1;
    }
    return 0;
}

int read_file(const char *file, uint8_t *bytes, size_t most, size_t *length)
{
    if (file == NULL)
        return read_all(STDIN_FILENO, bytes, most, length);
    int fd = open(file, O_RDONLY | O_NOCTTY | O_CLOEXEC);
    if (fd == -1)
        return -1;
    int ended = read_all(fd, bytes, most, length), why = errno;
    close(fd);
    errno = why;
    return ended;
}

int write_all(int fd, const char *bytes, size_t length)
{
    while (length > 0) {
        ssize_t put = write(fd, bytes, length);
        if (put == -1 && errno == EINTR)
            continue;
        if (put <= 0)
            return -1;
        bytes += put;
        length -= (size_t)put;
    }
    return 0;
}

int write_output(const char *bytes, size_t length)
{
    int fd = dup(STDOUT_FILENO);

    if (fd == -1)
        return -1;
    int ended = write_all(fd, bytes, length), why = errno;
    if (close(fd) != 0 && ended == 0)
        return -1;
    errno = why;
    return ended;
}
