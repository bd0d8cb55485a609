/* Files in and out. */
#define _XOPEN_SOURCE 700 /* for mkstemp, fsync and realpath */

#include <errno.h>
#include <fcntl.h>
#include <stdarg.h>
#include <stdlib.h>
#include <string.h>
#include <sys/stat.h>
#include <unistd.h>

#include "program.h"

int complain(const char *about, const char *format, ...)
{
    va_list values;
    fflush(stdout); /* so that both outputs stand in their order */
    fputs("emdf: ", stderr);
    if (about) {
        print_text(stderr, about);
        fputs(": ", stderr);
    }
    va_start(values, format);
    vfprintf(stderr, format, values);
    va_end(values);
    fputc('\n', stderr);
    return FAILED;
}

/* ---- input */

static int is_standard(const char *name)
{
    return !strcmp(name, "-");
}

const char *input_title(const char *name)
{
    return is_standard(name) ? "standard input" : name;
}

/* NULL where it can't be read from. */
static FILE *open_input(const char *name)
{
    static int is_taken;
    FILE *file;
    if (is_standard(name)) {
        if (isatty(STDIN_FILENO))
            complain(input_title(name), "is a terminal; name a file, or use a pipe");
        else if (is_taken)
            complain(input_title(name), "was read already");
        else
            return is_taken = 1, stdin;
        return NULL;
    }
    file = fopen(name, "rb");
    if (!file)
        complain(name, "%s", strerror(errno));
    return file;
}

int load_file(const char *name, uint8_t *bytes, size_t room, const char *limit, size_t *length)
{
    FILE *file = open_input(name);
    int is_loaded = 0;
    if (!file)
        return 0;
    errno = 0;
    *length = fread(bytes, 1, room, file);
    if (ferror(file))
        complain(input_title(name), "%s", strerror(errno));
    else if (*length == room && limit)
        complain(input_title(name), "longer than %lu bytes, %s", (unsigned long)(room - 1), limit);
    else
        is_loaded = 1;
    if (file != stdin)
        fclose(file);
    return is_loaded;
}

/* ---- output */

static int write_standard(const uint8_t *bytes, size_t length)
{
    if (isatty(STDOUT_FILENO))
        return complain("standard output", "is a terminal; use -o OUT, or a pipe");
    fwrite(bytes, 1, length, stdout);
    return DONE;
}

/* 0 and errno where not all of it was written. */
static int write_all(int file, const uint8_t *bytes, size_t length)
{
    while (length) {
        ssize_t n = write(file, bytes, length);
        if (n < 0 && errno == EINTR)
            continue;
        if (n < 0)
            return 0;
        bytes += n;
        length -= (size_t)n;
    }
    return 1;
}

/* 0 and errno where it isn't on disk; a file that has no disk behind it says EINVAL. */
static int sync_file(int file)
{
    return !fsync(file) || errno == EINVAL;
}

/* A device or a pipe is written to as it stands: it can't be replaced. */
static int write_device(const char *name, const uint8_t *bytes, size_t length)
{
    int file = open(name, O_WRONLY);
    int is_written = file >= 0 && write_all(file, bytes, length);
    int failure = errno;
    if (file >= 0 && close(file) && is_written)
        is_written = 0, failure = errno;
    return is_written ? DONE : complain(name, "%s", strerror(failure));
}

/* The new file is the old one's: owner as far as may be, and mode. */
static int take_over(int file, const struct stat *old)
{
    mode_t mask = umask(0);
    umask(mask);
    if (old && fchown(file, old->st_uid, old->st_gid))
        errno = 0; /* another's file, which its group or all may write */
    return !fchmod(file, old ? old->st_mode & 0777 : 0666 & ~mask);
}

static void sync_folder(const char *folder)
{
    int file = open(folder, O_RDONLY);
    if (file >= 0) {
        fsync(file);
        close(file);
    }
}

/* The folder of a path, with its last slash; "" where it has none. */
static char *folder_of(const char *path, size_t room)
{
    const char *slash = strrchr(path, '/');
    size_t length = slash ? (size_t)(slash - path) + 1 : 0;
    char *folder = (char *)malloc(length + room + 1);
    if (folder) {
        memcpy(folder, path, length);
        folder[length] = '\0';
    }
    return folder;
}

/* Writes beside the path, and renames. 0 and errno where it could not; then the path is as it was. */
static int replace_file(const char *path, const struct stat *old, const uint8_t *bytes, size_t length)
{
    static const char pattern[] = ".emdf-XXXXXX";
    char *beside = folder_of(path, sizeof pattern), *folder = folder_of(path, 1);
    int is_replaced = 0, failure = ENOMEM, file = -1;
    if (beside && folder) {
        file = mkstemp(strcat(beside, pattern));
        failure = errno;
    }
    if (file >= 0) {
        is_replaced = write_all(file, bytes, length) && take_over(file, old) && sync_file(file);
        failure = errno;
        if (close(file) && is_replaced)
            is_replaced = 0, failure = errno;
        if (is_replaced && rename(beside, path))
            is_replaced = 0, failure = errno;
        if (!is_replaced)
            unlink(beside);
        else
            sync_folder(*folder ? folder : ".");
    }
    free(beside);
    free(folder);
    errno = failure;
    return is_replaced;
}

int save_file(const char *name, const uint8_t *bytes, size_t length)
{
    struct stat old;
    int is_there, is_saved, failure;
    char *path;
    if (is_standard(name))
        return write_standard(bytes, length);
    is_there = !stat(name, &old);
    failure = errno;
    if (!is_there && !lstat(name, &old))
        return complain(name, "a link that leads to no file: %s", strerror(failure));
    if (is_there && S_ISDIR(old.st_mode))
        return complain(name, "%s", strerror(EISDIR));
    if (is_there && !S_ISREG(old.st_mode))
        return write_device(name, bytes, length);
    if (is_there && access(name, W_OK))
        return complain(name, "%s", strerror(errno));
    path = realpath(name, NULL); /* a link stays a link */
    if (is_there && !path)
        return complain(name, "%s", strerror(errno));
    is_saved = replace_file(path ? path : name, is_there ? &old : NULL, bytes, length);
    free(path);
    return is_saved ? DONE : complain(name, "%s", strerror(errno));
}

int finish_output(int status)
{
    errno = 0;
    if (fflush(stdout) || ferror(stdout))
        return complain("standard output", "%s", errno ? strerror(errno) : "not all of it could be written");
    return status;
}
