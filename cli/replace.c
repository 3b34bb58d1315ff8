/* A file written whole or not at all. */
#define _POSIX_C_SOURCE 200809L
#define _XOPEN_SOURCE 700
#include "files.h"

#include <errno.h>
#include <fcntl.h>
#include <signal.h>
#include <stdio.h>
#include <stdlib.h>
#include <string.h>
#include <sys/stat.h>
#include <unistd.h>

#define TEMPORARY ".cartheron-XXXXXX"

/* Writes to something that has no content to keep: a device or a pipe. */
static int write_through(const char *file, const char *bytes, size_t length)
{
    int fd = open(file, O_WRONLY | O_NOCTTY | O_CLOEXEC);

    if (fd == -1)
        return -1;
    if (write_all(fd, bytes, length) != 0) {
        int why = errno;
        close(fd);
        errno = why;
        return -1;
    }
    return close(fd);
}

/* The mode of a file that is not there yet. */
static mode_t mode_of_new(void)
{
    mode_t kept_back = umask(0);

    umask(kept_back);
    return 0666 & ~kept_back;
}

/* Fills an open temporary file, gives it its mode and sees it onto the disk; closes it in any case. */
static int fill(int fd, mode_t mode, const char *bytes, size_t length)
{
    int ended = write_all(fd, bytes, length) == 0 && fchmod(fd, mode) == 0 && fsync(fd) == 0 ? 0 : -1;
    int why = errno;

    if (close(fd) != 0 && ended == 0)
        return -1;
    errno = why;
    return ended;
}

/* The name of a temporary file in the folder of a file, for mkstemp, in memory that the caller frees. */
static char *name_beside(const char *file)
{
    const char *slash = strrchr(file, '/');
    size_t folder = slash == NULL ? 0 : (size_t)(slash - file) + 1;
    char *name = malloc(folder + sizeof TEMPORARY);

    if (name == NULL)
        return NULL;
    memcpy(name, file, folder);
    memcpy(name + folder, TEMPORARY, sizeof TEMPORARY);
    return name;
}

/* Writes a temporary file and gives it the file's name. */
static int write_beside(const char *file, char *temporary, mode_t mode, const char *bytes, size_t length)
{
    int fd = mkstemp(temporary);

    if (fd == -1)
        return -1;
    if (fill(fd, mode, bytes, length) == 0 && rename(temporary, file) == 0)
        return 0;
    int why = errno;
    unlink(temporary);
    errno = why;
    return -1;
}

/* Replaces a regular file, or makes a new one. The signals by which a person or a system ends a program wait
 * meanwhile, so that none leaves the temporary file behind. */
static int replace(const char *file, mode_t mode, const char *bytes, size_t length)
{
    char *temporary = name_beside(file);
    sigset_t ending, before;

    if (temporary == NULL)
        return -1;
    sigemptyset(&ending);
    sigaddset(&ending, SIGHUP);
    sigaddset(&ending, SIGINT);
    sigaddset(&ending, SIGQUIT);
    sigaddset(&ending, SIGTERM);
    sigprocmask(SIG_BLOCK, &ending, &before);
    int ended = write_beside(file, temporary, mode, bytes, length), why = errno;
    sigprocmask(SIG_SETMASK, &before, NULL);
    free(temporary);
    errno = why;
    return ended;
}

/* A link stays a link: what it leads to is replaced. */
static int replace_target(const char *file, mode_t mode, const char *bytes, size_t length)
{
    char *target = realpath(file, NULL);

    if (target == NULL)
        return -1;
    int ended = replace(target, mode, bytes, length), why = errno;
    free(target);
    errno = why;
    return ended;
}

int write_file(const char *file, const char *bytes, size_t length)
{
    struct stat is;

    if (stat(file, &is) != 0) {
        int why = errno;
        if (why == ENOENT && lstat(file, &is) != 0)
            return replace(file, mode_of_new(), bytes, length);
        errno = why;
        return -1;
    }
    if (S_ISDIR(is.st_mode)) {
        errno = EISDIR;
        return -1;
    }
    if (!S_ISREG(is.st_mode))
        return write_through(file, bytes, length);
    if (access(file, W_OK) != 0)
        return -1;
    return replace_target(file, is.st_mode & 0777, bytes, length);
}
