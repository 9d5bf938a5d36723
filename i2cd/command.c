/* command.c: a command that runs with the shim. */
#define _GNU_SOURCE
#include "command.h"

#include <errno.h>
#include <limits.h>
#include <stdio.h>
#include <stdlib.h>
#include <string.h>
#include <sys/prctl.h>
#include <sys/wait.h>
#include <unistd.h>

/* Where the shim is, from the program's own folder. */
static const char *const places[] = { "", "../lib/", "../lib64/", "../lib/x86_64-linux-gnu/",
                                      "../lib/aarch64-linux-gnu/" };

/* Writes the path of this program's folder, with a `/` at its end. */
static int own_folder(char *path, size_t room)
{
    ssize_t length = readlink("/proc/self/exe", path, room);
    if (length < 0)
        return -errno;
    while (length > 0 && path[length - 1] != '/')
        length--;
    if ((size_t)length >= room)
        return -ENAMETOOLONG;
    path[length] = 0;
    return 0;
}

/* Writes the whole path of a file that can be read. */
static int whole_path(const char *given, char *path, size_t room)
{
    char found[PATH_MAX];
    if (realpath(given, found) == NULL || access(found, R_OK) != 0)
        return -errno;
    return snprintf(path, room, "%s", found) < (int)room ? 0 : -ENAMETOOLONG;
}

int shim_path(const char *given, char *path, size_t room)
{
    char folder[PATH_MAX], tried[2 * PATH_MAX];
    if (given != NULL)
        return whole_path(given, path, room);
    int first = own_folder(folder, sizeof folder);
    for (size_t i = 0; i < sizeof places / sizeof *places && first == 0; i++) {
        snprintf(tried, sizeof tried, "%s%s%s", folder, places[i], SHIM_NAME);
        if (whole_path(tried, path, room) == 0)
            return 0;
    }
    return first != 0 ? first : -ENOENT;
}

/* Puts the shim before what is loaded anyway. */
static int set_preload(const char *shim)
{
    const char *before = getenv("LD_PRELOAD");
    char *both;
    if (before == NULL || *before == 0)
        return setenv("LD_PRELOAD", shim, 1);
    if (asprintf(&both, "%s:%s", shim, before) < 0)
        return -1;
    int result = setenv("LD_PRELOAD", both, 1);
    free(both);
    return result;
}

pid_t command_start(char *const words[], const char *shim, const char *path, const sigset_t *mask)
{
    pid_t server = getpid();
    pid_t process = fork();
    if (process != 0)
        return process > 0 ? process : -errno;
    if ((path && setenv(SOCKET_VARIABLE, path, 1) != 0) || (shim && set_preload(shim) != 0)) {
        perror("pmb-i2cd");
        _exit(126);
    }
    /* (a server that is killed can't end its command) */
    prctl(PR_SET_PDEATHSIG, SIGTERM);
    if (getppid() != server)
        _exit(128 + SIGTERM);
    sigprocmask(SIG_SETMASK, mask, NULL);
    execvp(words[0], words);
    fprintf(stderr, "pmb-i2cd: %s: %s\n", words[0], strerror(errno));
    _exit(errno == ENOENT ? 127 : 126);
}

int command_status(int reported)
{
    return WIFSIGNALED(reported) ? 128 + WTERMSIG(reported) : WEXITSTATUS(reported);
}
