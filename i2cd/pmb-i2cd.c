/* pmb-i2cd.c: the program. It reads the words and the profile, opens what they ask for, and serves in
 * one loop until a signal ends it, or the command of --run has ended. */
#define _GNU_SOURCE
#include <dirent.h>
#include <errno.h>
#include <fcntl.h>
#include <limits.h>
#include <poll.h>
#include <signal.h>
#include <stdio.h>
#include <stdlib.h>
#include <string.h>
#include <sys/wait.h>
#include <unistd.h>

#include "adapter.h"
#include "command.h"
#include "cuse.h"
#include "pmb.h"
#include "server.h"
#include "signals.h"
#include "words.h"

/* The longest profile, as for `pmb`. */
#define MOST_PROFILE 1048576

/* How many descriptors are waited for besides those of the socket. */
#define FIRST_POLLS 3

/* How the name of the directory of a command's socket begins. */
#define DIRECTORY_NAME "pmb-i2cd."

/* How long nobody is accepted after there was no descriptor or no memory, in milliseconds. */
#define SHORT_WAIT 100

/* What is open, so that the end can close it. */
struct open {
    struct adapter adapter;
    struct server server;
    struct cuse cuse;
    int has_adapter, has_server, has_cuse;
    char directory[PATH_MAX]; /* the socket's own, or "" */
    char socket[PATH_MAX];    /* its absolute path */
    int signals;              /* the descriptor of signals_open */
    pid_t command;            /* 0 where there is none */
    int reported;             /* what waitpid reported of it */
};

static struct open all;

/* ---- the end */

static void close_all(void)
{
    if (all.has_server)
        server_close(&all.server);
    if (all.has_cuse)
        cuse_close(&all.cuse);
    if (all.directory[0])
        rmdir(all.directory);
    if (all.has_adapter)
        adapter_close(&all.adapter);
}

/* Ends with what failed, of an errno. A command without a bus has to end too. */
static void fail(const char *what, int error)
{
    fprintf(stderr, "pmb-i2cd: %s: %s\n", what, strerror(error));
    close_all();
    if (all.command > 0) {
        kill(all.command, SIGTERM);
        waitpid(all.command, NULL, 0);
    }
    exit(status_of(error == ENOMEM ? STATUS_MEMORY : STATUS_FAILED));
}

/* ---- what is opened */

/* Reads a file of up to MOST_PROFILE bytes whole. */
static char *read_profile(const char *path, size_t *length)
{
    static char text[MOST_PROFILE + 1];
    int file = open(path, O_RDONLY | O_CLOEXEC);
    ssize_t count = file < 0 ? -1 : 0;
    *length = 0;
    while (file >= 0 && *length < sizeof text) {
        count = read(file, text + *length, sizeof text - *length);
        if (count == 0 || (count < 0 && errno != EINTR))
            break;
        *length += count > 0 ? (size_t)count : 0;
    }
    if (count < 0)
        fail(path, errno);
    close(file);
    if (*length > MOST_PROFILE) {
        fprintf(stderr, "pmb-i2cd: %s: profile too long\n", path);
        exit(status_of(STATUS_USAGE));
    }
    return text;
}

/* Writes what `pmb profile` would say of a profile. Its first line begins with the program's name. */
static void tell_fault(const char *text, size_t length)
{
    static const char other[] = "pmb: ";
    char told[PMB_MOST_FAULT_TEXT];
    pmb_result result;
    size_t written = pmb_profile_fault(text, length, told, sizeof told, &result);
    size_t end = written < sizeof told ? written : sizeof told;
    size_t at = end >= sizeof other && memcmp(told, other, sizeof other - 1) == 0 ? sizeof other - 1 : 0;
    fputs("pmb-i2cd: ", stderr);
    fwrite(told + at, 1, end - at, stderr);
}

static void open_adapter(const char *path)
{
    pmb_result result;
    size_t length;
    char *text = read_profile(path, &length);
    int32_t status = adapter_open(&all.adapter, text, length, &result);
    if (status == PMB_BAD_PROFILE) {
        tell_fault(text, length);
        exit(status_of(STATUS_USAGE));
    }
    if (status != PMB_OK) /* (what is opened here can't be closed) */
        fail(path, ENOMEM);
    all.has_adapter = 1;
}

static void open_log(const char *path)
{
    int result = adapter_open_log(&all.adapter, path);
    if (result != 0)
        fail(path, -result);
}

/* Removes the directories that killed servers of the user have left in a folder. */
static void clear_directories(const char *temporary)
{
    DIR *folder = opendir(temporary);
    for (struct dirent *it; folder && (it = readdir(folder)) != NULL;) {
        char path[PATH_MAX];
        if (strncmp(it->d_name, DIRECTORY_NAME, sizeof DIRECTORY_NAME - 1) == 0 &&
            snprintf(path, sizeof path, "%s/%s", temporary, it->d_name) < (int)sizeof path)
            server_clear_directory(path);
    }
    if (folder)
        closedir(folder);
}

/* Makes a directory for the socket of a command. */
static void make_directory(void)
{
    const char *temporary = getenv("TMPDIR");
    if (temporary == NULL || *temporary == 0)
        temporary = "/tmp";
    clear_directories(temporary);
    int length = snprintf(all.directory, sizeof all.directory, "%s/" DIRECTORY_NAME "XXXXXX", temporary);
    int is_short = length < (int)sizeof all.directory;
    if (!is_short || mkdtemp(all.directory) == NULL) {
        all.directory[0] = 0;
        fail(temporary, is_short ? errno : ENAMETOOLONG);
    }
}

/* Writes the whole path of a socket to all.socket, as another directory's programs can use it. */
static void find_socket(const char *path)
{
    char here[PATH_MAX] = "";
    if (*path != '/' && getcwd(here, sizeof here) == NULL)
        fail(path, errno);
    int length = snprintf(all.socket, sizeof all.socket, "%s%s%s", here, *here ? "/" : "", path);
    if (length >= (int)sizeof all.socket)
        fail(path, ENAMETOOLONG);
}

/* Opens the socket of a path, or of a directory of its own. */
static void open_socket(const char *path, int is_for_command)
{
    static char own[PATH_MAX];
    if (path == NULL) {
        make_directory();
        snprintf(own, sizeof own, "%.*s/" SOCKET_NAME, (int)(sizeof own - sizeof SOCKET_NAME - 1),
                 all.directory);
        path = own;
    }
    find_socket(path);
    /* (a command gets the whole path, and may be told none that it can't use) */
    int result = server_open(&all.server, &all.adapter, is_for_command ? all.socket : path);
    if (result != 0)
        fail(is_for_command ? all.socket : path, -result);
    all.has_server = 1;
}

static void open_device(const char *name)
{
    int result = cuse_open(&all.cuse, &all.adapter, name);
    if (result != 0)
        fail(result == -EEXIST ? name : "/dev/cuse", -result);
    all.has_cuse = 1;
}

static void refuse_shim(const char *shim)
{
    fprintf(stderr, "pmb-i2cd: %s: LD_PRELOAD takes no path with a blank or a colon; see --shim\n", shim);
    close_all();
    exit(status_of(STATUS_FAILED));
}

static void start_command(const struct words *words, const sigset_t *mask)
{
    char shim[PATH_MAX];
    if (all.has_server) {
        int result = shim_path(words->shim, shim, sizeof shim);
        if (result != 0)
            fail(words->shim ? words->shim : SHIM_NAME, -result);
        if (strpbrk(shim, " :"))
            refuse_shim(shim);
    }
    all.command = command_start(words->command, all.has_server ? shim : NULL,
                                all.has_server ? all.socket : NULL, mask);
    if (all.command < 0)
        fail(words->command[0], (int)-all.command);
}

/* ---- the loop */

/* Does what the signals that came ask for. Returns whether all is over. */
static int after_signals(void)
{
    int number;
    while ((number = signals_next(all.signals)) != 0) {
        if (number == SIGCHLD) {
            if (all.command > 0 && waitpid(all.command, &all.reported, WNOHANG) == all.command)
                return 1;
        } else if (all.command == 0) {
            return 1;
        } else {
            kill(all.command, number); /* the command ends first */
        }
    }
    return 0;
}

/* Ends where the bus or its log has failed. */
static void check_adapter(const char *log)
{
    if (all.adapter.bus_error != 0)
        fail("bus", all.adapter.bus_error);
    if (all.adapter.log_error != 0)
        fail(log, all.adapter.log_error);
}

/* Waits for what comes next; `polls` has the signals, the log, the device and the socket with its
 * connections. Returns how many of the socket's there are. */
static size_t wait_for_next(struct pollfd *polls)
{
    int is_behind = adapter_is_behind(&all.adapter);
    size_t count = all.has_server ? server_polls(&all.server, polls + FIRST_POLLS) : 0;
    int wait = all.has_server && all.server.is_short ? SHORT_WAIT : -1;
    polls[0] = (struct pollfd){ all.signals, POLLIN, 0 };
    polls[1] = (struct pollfd){ is_behind ? all.adapter.log : -1, POLLOUT, 0 };
    polls[2] = (struct pollfd){ all.has_cuse ? all.cuse.descriptor : -1, POLLIN, 0 };
    /* (where the log is behind, everybody else waits) */
    if (poll(polls, is_behind ? 2 : FIRST_POLLS + count, wait) < 0 && errno != EINTR)
        fail("poll", errno);
    return count;
}

static void serve(const char *log)
{
    static struct pollfd polls[FIRST_POLLS + 1 + MOST_CLIENTS];
    for (;;) {
        size_t count = wait_for_next(polls);
        if (polls[0].revents != 0 && after_signals())
            return;
        if (polls[1].revents != 0)
            adapter_write_log(&all.adapter);
        if (polls[2].revents != 0) {
            int result = cuse_serve(&all.cuse);
            if (result != 0)
                fail(all.cuse.name, -result);
        }
        if (count > 0)
            server_serve(&all.server, polls + FIRST_POLLS, count);
        check_adapter(log);
    }
}

/* Opens what is closed of standard input, output and error: else what is opened next would take their
 * place, and get what the server says. */
static void open_standard(void)
{
    int opened;
    do {
        opened = open("/dev/null", O_RDWR);
    } while (opened >= 0 && opened <= STDERR_FILENO);
    if (opened >= 0)
        close(opened);
}

int main(int count, char **given)
{
    sigset_t before;
    open_standard();
    struct words words = read_words(count, given);
    open_adapter(words.profile);
    if (words.log)
        open_log(words.log);
    all.signals = signals_open(words.command != NULL, &before);
    if (all.signals < 0)
        fail("signals", -all.signals);
    if (words.cuse)
        open_device(words.cuse);
    /* (a command that has a device needs no shim, unless both are asked for) */
    if (words.socket || !words.cuse)
        open_socket(words.socket, words.command != NULL);
    if (words.command)
        start_command(&words, &before);
    serve(words.log);
    close_all();
    return words.command ? command_status(all.reported) : STATUS_DONE;
}
