/* signals.c: the signals that end the program, and those that it hands on to its command.
 *
 * They come by a descriptor, beside those of the clients: so a server that never has a moment of rest
 * ends too. */
#define _GNU_SOURCE
#include "signals.h"

#include <errno.h>
#include <stddef.h>
#include <sys/signalfd.h>
#include <unistd.h>

static void pass_over(int number)
{
    (void)number;
}

/* Whether a signal is ignored already, as nohup has it. */
static int is_ignored(int number)
{
    struct sigaction found;
    return sigaction(number, NULL, &found) == 0 && found.sa_handler == SIG_IGN;
}

/* Has a signal do nothing here. (A handler, unlike SIG_IGN, isn't passed on to the command.) */
static void leave(int number)
{
    struct sigaction action = { .sa_handler = pass_over, .sa_flags = SA_RESTART };
    sigemptyset(&action.sa_mask);
    if (!is_ignored(number))
        sigaction(number, &action, NULL);
}

int signals_open(int is_with_command, sigset_t *before)
{
    sigset_t taken;
    sigemptyset(&taken);
    sigaddset(&taken, SIGTERM);
    sigaddset(&taken, SIGCHLD);
    if (!is_ignored(SIGHUP))
        sigaddset(&taken, SIGHUP);
    if (is_with_command) {
        leave(SIGINT);
        leave(SIGQUIT);
    } else {
        sigaddset(&taken, SIGINT);
    }
    leave(SIGPIPE); /* (the write tells it) */
    sigprocmask(SIG_BLOCK, &taken, before);
    int descriptor = signalfd(-1, &taken, SFD_CLOEXEC | SFD_NONBLOCK);
    return descriptor >= 0 ? descriptor : -errno;
}

int signals_next(int descriptor)
{
    struct signalfd_siginfo told;
    return read(descriptor, &told, sizeof told) == (ssize_t)sizeof told ? (int)told.ssi_signo : 0;
}
