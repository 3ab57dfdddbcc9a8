#include "output_file.h"

#include "cleanup.h"
#include "fail.h"
#include "mapped_file.h"

#include <dirent.h>
#include <errno.h>
#include <fcntl.h>
#include <limits.h>
#include <signal.h>
#include <stdbool.h>
#include <stdio.h>
#include <stdlib.h>
#include <string.h>
#include <sys/stat.h>
#include <unistd.h>

static char temporary[PATH_MAX];
static volatile sig_atomic_t unfinished;

static void discard_unfinished(void)
{
    if (unfinished)
        unlink(temporary);
    unfinished = false;
}

static _Noreturn void fail_to_write(const char *name)
{
    fail("%s: %s", name, strerror(errno));
}

static bool write_all(int descriptor, const uint8_t *bytes, size_t length)
{
    while (length > 0) {
        ssize_t written = write(descriptor, bytes, length);
        if (written < 0 && errno == EINTR)
            continue;
        if (written < 0)
            return false;
        bytes += written;
        length -= (size_t)written;
    }
    return true;
}

static int bytes_descriptor = -1;    /* standard output as it was, once the report goes elsewhere */

bool is_standard_output(const char *name)
{
    return strcmp(name, "-") == 0;
}

void report_on_standard_error(void)
{
    bytes_descriptor = fcntl(STDOUT_FILENO, F_DUPFD_CLOEXEC, STDERR_FILENO + 1);
    if (bytes_descriptor < 0 || dup2(STDERR_FILENO, STDOUT_FILENO) < 0)
        fail_to_write("standard output");
}

static void write_to_standard_output(const uint8_t *bytes, size_t length)
{
    struct stat status;
    if (fstat(bytes_descriptor, &status) == 0 && is_mapped_file(&status))
        fail("standard output: is an input file, and is not written over");
    if (!write_all(bytes_descriptor, bytes, length) || close(bytes_descriptor) != 0)
        fail_to_write("standard output");
}

static void write_directly(const char *name, const uint8_t *bytes, size_t length)
{
    int descriptor = open(name, O_WRONLY | O_CLOEXEC);
    if (descriptor < 0 || !write_all(descriptor, bytes, length) || close(descriptor) != 0)
        fail_to_write(name);
}

/* A temporary file in the directory of `name`. */
static int open_temporary(const char *name)
{
    const char *slash = strrchr(name, '/');
    int directory = slash ? (int)(slash - name + 1) : 0;
    int length = snprintf(temporary, sizeof temporary, "%.*s.glintloom-XXXXXX", directory, name);
    if (length < 0 || (size_t)length >= sizeof temporary) {
        errno = ENAMETOOLONG;
        return -1;
    }
    unfinished = true;
    return mkstemp(temporary);
}

static mode_t mode_of_new_files(void)
{
    mode_t mask = umask(0);
    umask(mask);
    return 0666 & ~mask;
}

/* Owner, group and permissions of the file that is replaced; the bits that lend its owner's rights are not kept. */
static bool set_owner_and_mode(int descriptor, const struct stat *replaced)
{
    if (replaced == NULL)
        return fchmod(descriptor, mode_of_new_files()) == 0;
    return fchown(descriptor, replaced->st_uid, replaced->st_gid) == 0 && fchmod(descriptor, replaced->st_mode & 0777) == 0;
}

/* `replaced` is NULL if there is no such file yet. */
static void write_whole(const char *name, const struct stat *replaced, const uint8_t *bytes, size_t length)
{
    add_cleanup(discard_unfinished);
    clean_up_on_signals();
    int descriptor = open_temporary(name);
    if (descriptor < 0 || !set_owner_and_mode(descriptor, replaced) || !write_all(descriptor, bytes, length) ||
        fsync(descriptor) != 0 || close(descriptor) != 0 || rename(temporary, name) != 0)
        fail_to_write(name);
    unfinished = false;
}

static void write_new(const char *name, const uint8_t *bytes, size_t length)
{
    struct stat status;
    if (lstat(name, &status) == 0)
        fail("%s: is a symbolic link to a file that is not there", name);
    write_whole(name, NULL, bytes, length);
}

/* A symbolic link stays one; the file that it names is replaced, unless it is write-protected. */
static void replace(const char *name, const struct stat *status, const uint8_t *bytes, size_t length)
{
    char *target = realpath(name, NULL);
    if (target == NULL || access(target, W_OK) != 0)
        fail_to_write(name);
    write_whole(target, status, bytes, length);
    free(target);
}

static bool is_descriptor(int descriptor, const struct stat *status)
{
    struct stat open_file;
    return fstat(descriptor, &open_file) == 0 && open_file.st_dev == status->st_dev && open_file.st_ino == status->st_ino;
}

/* A regular file is written by a rename, which would leave whoever has it open with the old file. */
static void refuse_if_open(const char *name, const struct stat *status)
{
    static const char folder[] = "/proc/self/fd";
    DIR *descriptors = opendir(folder);
    if (descriptors == NULL)
        fail("%s: which files are open is not known, as %s cannot be read: %s", name, folder, strerror(errno));
    for (struct dirent *entry; (entry = readdir(descriptors)) != NULL;)
        if (entry->d_name[0] != '.' && is_descriptor(atoi(entry->d_name), status))
            fail("%s: is open on descriptor %s, and is not replaced", name, entry->d_name);
    closedir(descriptors);
}

static bool is_null_device(const struct stat *status)
{
    struct stat null;
    return stat("/dev/null", &null) == 0 && S_ISCHR(null.st_mode) && S_ISCHR(status->st_mode) &&
           null.st_rdev == status->st_rdev;
}

/* Bytes do not go where addresses come from, nor among the report or the messages. The null device keeps none. */
static void refuse_if_standard(const char *name, const struct stat *status)
{
    static const char *const words[] = {"standard input", "standard output, which -o - writes to", "standard error"};
    for (int descriptor = STDIN_FILENO; descriptor <= STDERR_FILENO; descriptor++)
        if (is_descriptor(descriptor, status) && !is_null_device(status))
            fail("%s: is %s", name, words[descriptor]);
}

static void write_named(const char *name, const uint8_t *bytes, size_t length)
{
    struct stat status;
    if (stat(name, &status) != 0) {
        if (errno != ENOENT || name[0] == '\0')
            fail_to_write(name);
        write_new(name, bytes, length);
    } else if (is_mapped_file(&status)) {
        fail("%s: is an input file, and is not written over", name);
    } else if (S_ISREG(status.st_mode)) {
        refuse_if_open(name, &status);
        replace(name, &status, bytes, length);
    } else {
        refuse_if_standard(name, &status);
        write_directly(name, bytes, length);
    }
}

void write_output_file(const char *name, const uint8_t *bytes, size_t length)
{
    if (is_standard_output(name))
        write_to_standard_output(bytes, length);
    else
        write_named(name, bytes, length);
}
