/* command.h: a command that runs with the shim, as `--run` says. */
#ifndef COMMAND_H
#define COMMAND_H

#include <signal.h>
#include <stddef.h>
#include <sys/types.h>

/* The variable that names the server's socket to the shim. */
#define SOCKET_VARIABLE "PMB_I2C_SOCKET"

#define SHIM_NAME "libpmb-i2cdev.so"

/* Writes the whole path of the shim: of `given`, or, where that is null, of the one beside this program
 * or in a folder where install.sh puts it. Returns 0, or an errno below 0: that of the first place. */
int shim_path(const char *given, char *path, size_t room);

/* Starts a command, with the signals of `mask` blocked as they were; LD_PRELOAD has the shim before
 * what it had, and SOCKET_VARIABLE the socket's path. A null shim or path is left out.
 * It gets SIGTERM where this program is killed.
 * Returns its process, or an errno below 0. The command's own end with 127 says that there is none of
 * that name, and with 126 that it can't be run. */
pid_t command_start(char *const words[], const char *shim, const char *path, const sigset_t *mask);

/* The exit status that a shell would tell for what waitpid reports. */
int command_status(int reported);

#endif
