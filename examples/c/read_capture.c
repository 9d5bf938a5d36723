/* Writes what a capture says under a profile.
 *
 *     cc -std=c99 -Iinclude examples/c/read_capture.c release/libpmb.a -o read_capture
 *     ./read_capture examples/sessions/power_up.toml examples/sessions/power_up.txt
 *
 * The exit status is 0, or 1 where the capture has refusals, or 2 where a file can't be read, the
 * profile has a fault or there is no memory. */
#include <stdio.h>
#include <stdlib.h>
#include <string.h>

#include "pmb.h"

typedef struct text {
    char *bytes;
    size_t length;
} text;

/* Reads a whole file; 0 where that went well. */
static int read_file(const char *name, text *file)
{
    size_t room = 1 << 16;
    FILE *in = fopen(name, "rb");
    file->length = 0;
    file->bytes = malloc(room);
    while (in != NULL && file->bytes != NULL && !feof(in) && !ferror(in)) {
        file->length += fread(file->bytes + file->length, 1, room - file->length, in);
        if (file->length == room) {
            char *larger = realloc(file->bytes, room *= 2);
            if (larger == NULL) free(file->bytes);
            file->bytes = larger;
        }
    }
    if (in == NULL || file->bytes == NULL || ferror(in)) {
        fprintf(stderr, "%s can't be read\n", name);
        return -1;
    }
    return fclose(in);
}

/* Makes the text of a capture. The first call has a room that mostly is enough, and tells how much is
 * needed where it is not. */
static int show(const text *profile, const text *capture, text *shown, pmb_result *told)
{
    size_t room = 2 * capture->length + 4096;
    for (;;) {
        char *bytes = malloc(room);
        if (bytes == NULL) return PMB_NO_MEMORY;
        shown->bytes = bytes;
        shown->length = pmb_show(profile->bytes, profile->length, capture->bytes, capture->length,
                                 bytes, room, told);
        if (told->status != PMB_NO_ROOM) return told->status;
        free(bytes);
        room = shown->length;
    }
}

int main(int count, char **words)
{
    static char lines[PMB_MOST_FAULT_TEXT];
    text profile, capture, shown;
    pmb_result told;
    size_t length;
    if (count != 3) {
        fprintf(stderr, "usage: read_capture PROFILE CAPTURE\n");
        return 2;
    }
    if (read_file(words[1], &profile) != 0 || read_file(words[2], &capture) != 0) return 2;
    switch (show(&profile, &capture, &shown, &told)) {
    case PMB_OK:
        fwrite(shown.bytes, 1, shown.length, stdout);
        fprintf(stderr, "%llu packets, %llu refusals\n", (unsigned long long)told.packets,
                (unsigned long long)told.refusals);
        return told.refusals != 0;
    case PMB_BAD_PROFILE:
        length = pmb_profile_fault(profile.bytes, profile.length, lines, sizeof lines, &told);
        fwrite(lines, 1, length, stderr);
        return 2;
    default:
        fprintf(stderr, "no memory\n");
        return 2;
    }
}
