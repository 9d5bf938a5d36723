/* signals.h: the signals that end the program, and those that it hands on to its command. */
#ifndef SIGNALS_H
#define SIGNALS_H

#include <signal.h>

/* Blocks SIGTERM, SIGHUP, SIGCHLD, and, where no command runs, SIGINT: they come by a descriptor. With a
 * command SIGINT and SIGQUIT are left to it. `before` is the mask for the command.
 * Returns the descriptor, or an errno below 0. */
int signals_open(int is_with_command, sigset_t *before);

/* The next signal that came, or 0. */
int signals_next(int descriptor);

#endif
