#define _GNU_SOURCE    /* O_NOATIME */

#include "mapped_file.h"

#include "cleanup.h"
#include "fail.h"
#include "progress.h"

#include <errno.h>
#include <fcntl.h>
#include <signal.h>
#include <string.h>
#include <sys/mman.h>
#include <unistd.h>

enum { MOST_FILES = 3 };

static struct {
    const char *name;
    struct mapped_file file;
    int descriptor;
    struct stat status;    /* as it was mapped, or when its links or rights were last seen to change */
} mapped[MOST_FILES];
static int mapped_count;

/* SIGBUS: a page of a mapped file that the file no longer has, or that its disk does not give. Such a page is met in a call
 * of the library or in a copy, so anything may be called here. A SIGBUS from elsewhere ends the program as any signal. */
static void end_for_lost_page(int signal_number, siginfo_t *info, void *context)
{
    bool has_address = info->si_code > 0;    /* raised by the kernel and not by kill */
    uintptr_t fault = (uintptr_t)info->si_addr;
    (void)context;
    for (int i = 0; has_address && i < mapped_count; i++) {
        uintptr_t start = (uintptr_t)mapped[i].file.bytes;
        if (fault >= start && fault - start < mapped[i].file.length)
            fail("%s: was cut short, or its disk failed, while it was read", mapped[i].name);
    }
    end_by_signal(signal_number);
}

static void watch_for_lost_pages(void)
{
    struct sigaction action = {.sa_sigaction = end_for_lost_page, .sa_flags = SA_SIGINFO};
    sigaction(SIGBUS, &action, NULL);
}

static void map_bytes(const char *name, int descriptor, struct mapped_file *file)
{
    void *bytes = mmap(NULL, file->length, PROT_READ, MAP_PRIVATE, descriptor, 0);
    if (bytes == MAP_FAILED)
        fail("%s: %s", name, strerror(errno));
    file->bytes = bytes;
}

/* Some files of /proc say that they are empty and are not. */
static void check_empty(const char *name, int descriptor)
{
    char byte;
    ssize_t count = read(descriptor, &byte, 1);
    if (count < 0)
        fail("%s: %s", name, strerror(errno));
    if (count > 0)
        fail("%s: has no stated length", name);
}

/* Leaves the time of access as it is where the file's owner or root asks. A pipe must not hold up the open before it is
 * refused, hence O_NONBLOCK. */
static int open_to_read(const char *name)
{
    int flags = O_RDONLY | O_NONBLOCK | O_CLOEXEC;
    int descriptor = open(name, flags | O_NOATIME);
    return descriptor < 0 && errno == EPERM ? open(name, flags) : descriptor;
}

struct mapped_file map_file(const char *name)
{
    struct mapped_file file = {NULL, 0};
    struct stat status;
    int descriptor = open_to_read(name);
    if (descriptor < 0 || fstat(descriptor, &status) != 0)
        fail("%s: %s", name, strerror(errno));
    if (!S_ISREG(status.st_mode))
        fail("%s: not a regular file", name);
    if ((uintmax_t)status.st_size > SIZE_MAX)
        fail("%s: too large to map", name);
    file.length = (size_t)status.st_size;
    if (file.length > 0)
        map_bytes(name, descriptor, &file);
    else
        check_empty(name, descriptor);
    mapped[mapped_count].name = name;
    mapped[mapped_count].file = file;
    mapped[mapped_count].descriptor = descriptor;
    mapped[mapped_count].status = status;
    mapped_count++;
    watch_for_lost_pages();
    return file;
}

static bool same_time(struct timespec one, struct timespec other)
{
    return one.tv_sec == other.tv_sec && one.tv_nsec == other.tv_nsec;
}

static bool same_links_and_rights(const struct stat *one, const struct stat *other)
{
    return one->st_nlink == other->st_nlink && one->st_mode == other->st_mode && one->st_uid == other->st_uid &&
           one->st_gid == other->st_gid;
}

/* Ends the program if the content may have changed. */
static void compare_status(const char *name, struct stat *then, const struct stat *now)
{
    if (now->st_size < then->st_size)
        fail("%s: was cut short while it was read", name);
    if (now->st_size > then->st_size)
        fail("%s: was lengthened while it was read", name);
    bool written = !same_time(now->st_mtim, then->st_mtim), touched = !same_time(now->st_ctim, then->st_ctim);
    if (written || (touched && same_links_and_rights(now, then)))
        fail("%s: was written to, or its times were set, while it was read", name);
    if (touched) {
        pause_progress();
        note("%s: its links, owner or rights were changed while it was read", name);
        resume_progress();
        *then = *now;
    }
}

void check_mapped_files(void)
{
    for (int i = 0; i < mapped_count; i++) {
        struct stat now;
        if (fstat(mapped[i].descriptor, &now) != 0)
            fail("%s: %s", mapped[i].name, strerror(errno));
        compare_status(mapped[i].name, &mapped[i].status, &now);
    }
}

bool is_mapped_file(const struct stat *status)
{
    for (int i = 0; i < mapped_count; i++)
        if (mapped[i].status.st_dev == status->st_dev && mapped[i].status.st_ino == status->st_ino)
            return true;
    return false;
}
