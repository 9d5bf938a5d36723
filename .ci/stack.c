/* Measures how much stack the functions of pmb.h use that take whole inputs or have a handle, by painting
 * a stack and looking which of its bytes are still as painted after a call. From standard input come lines
 *
 *   CALL PROFILE INPUT
 *
 * with the names of two files; CALL is show, check, build, run, json or fault, or reader, items or bus, for
 * all calls of such a handle, or the number of a source of pmb_import, whose PROFILE is not read. It prints
 * the most that each used, and fails where that is more than MOST bytes. What a thread uses itself
 * counts too.
 *
 *   stack MOST <LINES
 */
#define _POSIX_C_SOURCE 200809L
#include <pthread.h>
#include <stdio.h>
#include <stdlib.h>
#include <string.h>

#include "pmb.h"

#define SIZE ((size_t)1 << 20)
#define PAINT 0xa5

enum call { SHOW, CHECK, BUILD, RUN, JSON, FAULT, READER, ITEMS, BUS, IMPORT, CALLS };

static const char *const names[CALLS] = {"show",  "check",  "build", "run", "json",
                                        "fault", "reader", "items", "bus", "import"};

typedef struct file {
    char *bytes;
    size_t length;
} file;

static enum call call;
static file profile, input;
static pmb_recorder recorder;
static pmb_result told;
static char room[1 << 16];

/* (reading continues after bad words: that is where a scan begins anew) */
static const pmb_choice choice = {12, PMB_LATE, PMB_GO_ON};
static const uint8_t none[1] = {0};

/* All calls of a reader, on the input in pieces of 1,000 bytes. */
static void use_reader(void)
{
    pmb_profile held = {0};
    pmb_reader reader = {0};
    size_t at = 0;
    pmb_profile_open(&held, profile.bytes, profile.length, &told);
    pmb_reader_open(&reader, &held, &choice, none, 0);
    pmb_profile_close(&held);
    while (at < input.length) {
        const size_t left = input.length - at, some = left < 1000 ? left : 1000;
        pmb_reader_feed(&reader, input.bytes + at, some);
        while (pmb_reader_take(&reader, room, sizeof room, &told) > 0) {
        }
        at += some;
    }
    pmb_reader_end(&reader);
    pmb_reader_take(&reader, room, sizeof room, &told);
    pmb_reader_close(&reader);
}

/* All calls of a reader of items, in the same way. */
static void use_items(void)
{
    pmb_profile held = {0};
    pmb_reader reader = {0};
    pmb_item item;
    size_t at = 0;
    pmb_profile_open(&held, profile.bytes, profile.length, &told);
    pmb_reader_open_items(&reader, &held, &choice, none, 0);
    pmb_profile_close(&held);
    while (at < input.length) {
        const size_t left = input.length - at, some = left < 1000 ? left : 1000;
        pmb_reader_feed(&reader, input.bytes + at, some);
        while (pmb_reader_next(&reader, &item, &told) > 0) {
        }
        at += some;
    }
    pmb_reader_end(&reader);
    pmb_reader_next(&reader, &item, &told);
    pmb_reader_close(&reader);
}

/* All calls of a bus: each line of the input is a request, and before it come three messages. */
static void use_bus(void)
{
    pmb_profile held = {0};
    pmb_bus bus = {0};
    const char *line = input.bytes, *const end = line + input.length;
    uint8_t bytes[64] = {0};
    pmb_profile_open(&held, profile.bytes, profile.length, &told);
    pmb_bus_open(&bus, &held);
    pmb_profile_close(&held);
    while (line < end) {
        const char *const lf = memchr(line, 10, (size_t)(end - line));
        size_t length = 1;
        pmb_bus_message(&bus, 0x58, PMB_WRITE, bytes, sizeof bytes, &length, 0);
        pmb_bus_message(&bus, 0x58, PMB_READ, bytes, sizeof bytes, &length, 1);
        pmb_bus_message(&bus, 0x58, PMB_READ_BLOCK, bytes, sizeof bytes, &length, 1);
        pmb_bus_request(&bus, line, (size_t)((lf ? lf : end) - line), &told);
        while (pmb_bus_events(&bus, room, sizeof room, &told) > 0) {
        }
        line = lf ? lf + 1 : end;
    }
    pmb_bus_close(&bus);
}

static void *run(void *unused)
{
    const char *p = profile.bytes, *i = input.bytes;
    const size_t pl = profile.length, il = input.length;
    switch (call) {
    case SHOW: pmb_show(p, pl, i, il, room, sizeof room, &told); break;
    case CHECK: pmb_check(p, pl, i, il, room, sizeof room, &told); break;
    case BUILD: pmb_build(p, pl, i, il, room, sizeof room, &told); break;
    case RUN: pmb_run(p, pl, i, il, room, sizeof room, &told); break;
    case JSON: pmb_json(p, pl, i, il, &choice, none, 0, room, sizeof room, &told); break;
    case FAULT: pmb_profile_fault(p, pl, room, sizeof room, &told); break;
    case READER: use_reader(); break;
    case ITEMS: use_items(); break;
    case BUS: use_bus(); break;
    case IMPORT: pmb_import(&recorder, "", 0, i, il, room, sizeof room, &told); break;
    case CALLS: break;
    }
    return unused;
}

/* How many bytes of a fresh stack a call uses, or 0 where it can't be said. */
static size_t used(unsigned char *stack)
{
    pthread_attr_t painted;
    pthread_t thread;
    size_t left = 0;
    memset(stack, PAINT, SIZE);
    if (pthread_attr_init(&painted) || pthread_attr_setstack(&painted, stack, SIZE) ||
        pthread_create(&thread, &painted, run, NULL) || pthread_join(thread, NULL))
        return 0;
    pthread_attr_destroy(&painted);
    while (left < SIZE && stack[left] == PAINT) left++;
    return SIZE - left;
}

static int read_file(const char *name, file *to)
{
    FILE *from = fopen(name, "rb");
    size_t room_for = 1 << 20;
    if (from == NULL) return 1;
    free(to->bytes);
    to->bytes = (char *)malloc(room_for);
    if (to->bytes == NULL) return 1;
    to->length = fread(to->bytes, 1, room_for, from);
    fclose(from);
    return 0;
}

static int find_call(const char *word)
{
    for (call = SHOW; call < IMPORT; call = (enum call)(call + 1))
        if (strcmp(names[call], word) == 0) return 0;
    recorder.source = (uint8_t)(word[0] - '0');
    return !(word[0] >= '0' && word[0] <= '4' && word[1] == 0);
}

int main(int count, char **words)
{
    const size_t most = count == 2 ? strtoul(words[1], NULL, 10) : 0;
    unsigned char *stack = (unsigned char *)aligned_alloc(4096, SIZE);
    size_t greatest[CALLS] = {0};
    char word[16], of_profile[512], of_input[512];
    int failed = 0, i;
    if (most == 0 || stack == NULL) return 2;
    while (scanf("%15s %511s %511s", word, of_profile, of_input) == 3) {
        size_t now;
        if (find_call(word) || read_file(of_profile, &profile) || read_file(of_input, &input)) {
            fprintf(stderr, "stack: %s %s %s can't be read\n", word, of_profile, of_input);
            return 2;
        }
        now = used(stack);
        if (now == 0 || now > most) {
            fprintf(stderr, "stack: %s %s %s uses %zu bytes\n", word, of_profile, of_input, now);
            failed = 1;
        }
        if (now > greatest[call]) greatest[call] = now;
    }
    for (i = 0; i < CALLS; i++) printf("%s %zu\n", names[i], greatest[i]);
    return failed;
}
