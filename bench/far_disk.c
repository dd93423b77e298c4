/* Stands for the disk of a far machine, which `bench/sshfs` takes the power from: preloaded into its sftp-server. What a file below
   FAR_DISK has when it is made sure (fsync) is copied to the file of that name below FAR_KEPT, before the answer; so what stands there
   is what the machine has after a power cut, where nothing that was not made sure has reached the disk. A name is made sure by a sync
   of its folder alone, so a file whose name is not there yet is not copied. Each fsync is told as a line of FAR_TOLD; with FAR_FAILS
   each of them fails. */
#define _GNU_SOURCE
#include <dlfcn.h>
#include <errno.h>
#include <fcntl.h>
#include <limits.h>
#include <stdio.h>
#include <stdlib.h>
#include <string.h>
#include <unistd.h>

static void tell(const char *path) {
    const char *told = getenv("FAR_TOLD");
    int out = told ? open(told, O_WRONLY | O_CREAT | O_APPEND, 0600) : -1;
    if (out >= 0) {
        dprintf(out, "fsync %s\n", path);
        close(out);
    }
}

/* Copies all of a file; on an error the answer is -1. */
static int copy(const char *from, const char *to) {
    char bytes[65536];
    int in = open(from, O_RDONLY), out = open(to, O_WRONLY | O_TRUNC), well = in >= 0 && out >= 0;
    ssize_t some = 0;
    while (well && (some = read(in, bytes, sizeof bytes)) > 0)
        well = write(out, bytes, some) == some;
    if (in >= 0)
        close(in);
    if (out >= 0)
        close(out);
    return well && some == 0 ? 0 : -1;
}

int fsync(int file) {
    int (*next)(int) = (int (*)(int))dlsym(RTLD_NEXT, "fsync");
    const char *disk = getenv("FAR_DISK"), *kept = getenv("FAR_KEPT");
    char link[64], path[PATH_MAX], to[2 * PATH_MAX];
    int answer = next(file);
    if (getenv("FAR_FAILS")) {
        errno = EIO;
        return -1;
    }
    if (answer != 0 || !disk || !kept)
        return answer;
    snprintf(link, sizeof link, "/proc/self/fd/%d", file);
    ssize_t length = readlink(link, path, sizeof path - 1);
    if (length < 0)
        return answer;
    path[length] = 0;
    tell(path);
    if (strncmp(path, disk, strlen(disk)) != 0)
        return answer;
    snprintf(to, sizeof to, "%s%s", kept, path + strlen(disk));
    if (access(to, F_OK) == 0 && copy(path, to) != 0) {
        errno = EIO;
        return -1;
    }
    return answer;
}
