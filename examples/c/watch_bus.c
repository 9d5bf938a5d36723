/* Reads a capture as it comes, 16 bytes at a time, and tells of each packet how many bytes it has and
 * whether the last one is the packet error code of the others: no memory from the heap, no profile.
 * On a board the text may come from a serial line.
 *
 *     cc -std=c99 -Iinclude examples/c/watch_bus.c release/libpmb.a -o watch_bus
 *     ./watch_bus <examples/sessions/power_up.txt
 *
 * The exit status is 0, or 1 where a word of the text is no token. */
#include <stdio.h>

#include "pmb.h"

/* The packet under way. */
static unsigned long packets, bytes;
static uint8_t crc;

static void take_event(pmb_event event)
{
    switch (event.kind) {
    case PMB_START:
        /* (a repeated START continues the packet) */
        break;
    case PMB_BYTE:
        crc = pmb_pec_next(crc, event.byte);
        bytes++;
        break;
    case PMB_STOP:
        /* bytes and their own code leave no remainder */
        printf("packet %lu: %lu bytes, %s\n", packets++, bytes,
               bytes > 1 && crc == 0 ? "PEC good" : "no PEC, or a bad one");
        bytes = 0;
        crc = 0;
        break;
    }
}

int main(void)
{
    pmb_lexer lexer = {0, 0, 0, 0, 0};
    pmb_event event;
    char piece[16];
    size_t length;
    int32_t status = PMB_NO_EVENT;
    while (status != PMB_BAD_TOKEN && (length = fread(piece, 1, sizeof piece, stdin)) > 0) {
        size_t from = 0, used;
        while ((status = pmb_lex(&lexer, piece + from, length - from, &used, &event)) == PMB_OK) {
            take_event(event);
            from += used;
        }
    }
    if (status != PMB_BAD_TOKEN) status = pmb_lex_end(&lexer, &event);
    if (status == PMB_OK) take_event(event);
    if (status == PMB_BAD_TOKEN) printf("bad token at byte %llu\n", (unsigned long long)lexer.at);
    return status == PMB_BAD_TOKEN;
}
