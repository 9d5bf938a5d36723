/* words.c: the words of the command line. */
#include "words.h"

#include <getopt.h>
#include <stdio.h>
#include <stdlib.h>
#include <string.h>

static const char usage[] =
    "usage: pmb-i2cd PROFILE [--socket PATH] [--cuse NAME] [--log FILE] [--shim FILE]\n"
    "       pmb-i2cd PROFILE .. --run -- COMMAND [WORD ..]\n";

static const char help[] =
    "Holds a bus of simulated devices, and lets programs use it as /dev/i2c-N.\n"
    "\n"
    "  PROFILE        a file: the devices of the bus (docs/profiles.md)\n"
    "  --socket PATH  serves programs that run with LD_PRELOAD=libpmb-i2cdev.so and\n"
    "                 PMB_I2C_SOCKET=PATH\n"
    "  --cuse NAME    makes the device /dev/NAME, as i2c-0; this needs /dev/cuse\n"
    "  --log FILE     appends what is on the wire, as capture text, for `pmb show`\n"
    "  --run          runs a command with these variables set, and ends with its exit status; without\n"
    "                 --socket the socket is in a new directory, which is removed\n"
    "  --shim FILE    the libpmb-i2cdev.so of --run; else it is the one beside this program, or in\n"
    "                 the library folder beside the program's\n"
    "  --help         this text\n"
    "\n"
    "SIGINT, SIGTERM and SIGHUP end it, and the socket and the device are removed.\n"
    "\n"
    "Exit status: 0 ended by a signal; 2 wrong words or a wrong profile; 3 a file, the socket or the\n"
    "device failed; 4 no memory. With --run it is that of the command, 128 and the signal's number if\n"
    "a signal ended it, 126 or 127 if it can't be run; and 125 in place of 2, 3 and 4.\n";

static int is_run;

int status_of(int status)
{
    return is_run && status != STATUS_DONE ? STATUS_OF_RUN : status;
}

/* Ends the program: the words are wrong. getopt_long has said it where `why` is null. */
static void refuse_words(const char *why)
{
    if (why)
        fprintf(stderr, "pmb-i2cd: %s\n", why);
    fputs(usage, stderr);
    exit(status_of(STATUS_USAGE));
}

struct words read_words(int count, char **given)
{
    static const struct option options[] = {
        { "socket", required_argument, NULL, 's' },
        { "cuse", required_argument, NULL, 'c' },
        { "log", required_argument, NULL, 'l' },
        { "shim", required_argument, NULL, 'p' },
        { "run", no_argument, NULL, 'r' },
        { "help", no_argument, NULL, 'h' },
        { NULL, 0, NULL, 0 },
    };
    static char name[] = "pmb-i2cd";
    struct words words = { 0 };
    int option;
    /* (with which getopt_long begins what it says) */
    given[0] = name;
    /* (it decides over the status of what is wrong before it too) */
    for (int i = 1; i < count && strcmp(given[i], "--") != 0; i++)
        is_run |= strcmp(given[i], "--run") == 0;
    /* "-": words without a dash come in their order, so that PROFILE may stand before the options */
    while ((option = getopt_long(count, given, "-h", options, NULL)) != -1) {
        switch (option) {
        case 1:
            if (words.profile)
                refuse_words("more than one PROFILE; a command comes after `--run --`");
            words.profile = optarg;
            break;
        case 's':
            words.socket = optarg;
            break;
        case 'c':
            words.cuse = optarg;
            break;
        case 'l':
            words.log = optarg;
            break;
        case 'p':
            words.shim = optarg;
            break;
        case 'r':
            is_run = 1;
            break;
        case 'h':
            printf("%s\n%s", usage, help);
            exit(STATUS_DONE);
        default:
            refuse_words(NULL);
        }
    }
    words.command = given + optind;
    if (words.profile == NULL)
        refuse_words("no PROFILE");
    if (is_run && words.command[0] == NULL)
        refuse_words("no COMMAND after `--run --`");
    if (!is_run && words.command[0] != NULL)
        refuse_words("a COMMAND without --run");
    if (!is_run && words.socket == NULL && words.cuse == NULL)
        refuse_words("one of --socket, --cuse and --run is needed");
    if (words.socket && *words.socket == 0)
        refuse_words("PATH is empty");
    if (words.cuse && (*words.cuse == 0 || strlen(words.cuse) > 31 || strchr(words.cuse, '/')))
        refuse_words("NAME is that of a file in /dev, of up to 31 characters");
    if (!is_run)
        words.command = NULL;
    return words;
}
