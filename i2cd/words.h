/* words.h: the words of the command line, and the exit statuses. */
#ifndef WORDS_H
#define WORDS_H

enum status {
    STATUS_DONE = 0,
    STATUS_USAGE = 2,  /* the words, or the profile */
    STATUS_FAILED = 3, /* a file, the socket or the device */
    STATUS_MEMORY = 4,
    STATUS_OF_RUN = 125 /* each of the three where there is a command, whose statuses these may be */
};

struct words {
    const char *profile, *socket, *cuse, *log, *shim;
    char **command; /* null without --run */
};

/* Reads the words. It ends the program where they are wrong, and after --help. */
struct words read_words(int count, char **given);

/* The exit status, by whether there is a command. */
int status_of(int status);

#endif
