/* Follows a capture that comes by standard input, for example from a serial line, and writes an object for
 * each packet as soon as it is there, as `pmb json --late --keep-going` does.
 *
 *     cc -std=c99 -Iinclude examples/c/follow.c release/libpmb.a -o follow
 *     ./follow examples/sessions/power_up.toml <examples/sessions/power_up.txt
 *
 * The exit status is 0, or 1 where the capture has refusals, or 2 where the profile can't be read or has a
 * fault, or there is no memory. */
#define _POSIX_C_SOURCE 200809L
#include <stdio.h>
#include <unistd.h>

#include "pmb.h"

#define MOST_PROFILE (1 << 20)

/* Opens the profile of a file. */
static int32_t open_profile(const char *name, pmb_profile *profile)
{
    static char text[MOST_PROFILE], lines[PMB_MOST_FAULT_TEXT];
    pmb_result told;
    size_t length;
    FILE *in = fopen(name, "rb");
    if (in == NULL) {
        fprintf(stderr, "%s can't be read\n", name);
        return PMB_BAD_PROFILE;
    }
    length = fread(text, 1, sizeof text, in);
    fclose(in);
    if (pmb_profile_open(profile, text, length, &told) == PMB_BAD_PROFILE)
        fwrite(lines, 1, pmb_profile_fault(text, length, lines, sizeof lines, &told), stderr);
    return told.status;
}

/* Writes what is ready. */
static void write_ready(pmb_reader *reader, pmb_result *told)
{
    static char out[1 << 16];
    do {
        fwrite(out, 1, pmb_reader_take(reader, out, sizeof out, told), stdout);
    } while (told->status == PMB_NO_ROOM);
    fflush(stdout);
}

int main(int count, char **words)
{
    const pmb_choice choice = {.digits = 6, .start = PMB_LATE, .bad_words = PMB_GO_ON};
    pmb_profile profile = {0};
    pmb_reader reader = {0};
    pmb_result told;
    int32_t status;
    char piece[4096];
    ssize_t length = 1;
    if (count != 2) {
        fprintf(stderr, "usage: follow PROFILE <CAPTURE\n");
        return 2;
    }
    status = open_profile(words[1], &profile);
    if (status == PMB_OK) status = pmb_reader_open(&reader, &profile, &choice, NULL, 0);
    /* `read` gives what has come, where `fread` would wait for a full piece. */
    while (status == PMB_OK && (length = read(0, piece, sizeof piece)) > 0) {
        status = pmb_reader_feed(&reader, piece, (size_t)length);
        write_ready(&reader, &told);
    }
    if (length < 0) {
        perror("the capture can't be read");
        return 2;
    }
    if (status == PMB_OK) status = pmb_reader_end(&reader);
    if (status != PMB_OK && status != PMB_ENDED) {
        if (status == PMB_NO_MEMORY) fprintf(stderr, "no memory\n");
        return 2;
    }
    write_ready(&reader, &told);
    pmb_reader_close(&reader);
    pmb_profile_close(&profile);
    return told.refusals != 0;
}
