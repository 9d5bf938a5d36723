/* Calls the functions of pmb.h over handles: what is written is what the calls over whole inputs write,
 * however a text is cut; closed handles, those of another kind, and threads; and, with REFUSES defined
 * and the linker's --wrap of malloc, realloc and free, with each allocation refused. C99 and C++. */
#include <pthread.h>
#include <stdio.h>
#include <stdlib.h>
#include <string.h>

#include "pmb.h"

#define THREADS 4
#define MOST 16384

static int fail(const char *what, int line)
{
    fprintf(stderr, "handles: line %d: %s\n", line, what);
    return 1;
}

#define EXPECT(holds)                                                                              \
    do {                                                                                           \
        if (!(holds)) return fail(#holds, __LINE__);                                               \
    } while (0)

#include "allocations.h"

static const char toml[] = "[[device]]\n"
                           "address = 0x58\n"
                           "pec = \"optional\"\n"
                           "[[device]]\n"
                           "address = 0x59\n"
                           "pec = \"off\"\n"
                           "pages = 2\n";

/* A write and a read of VOUT_COMMAND, a leg that is refused, an event that no packet allows there, a word
 * that is no token and what is left of its line, and a packet that the end cuts off. */
static const char capture[] = "# 1.5 s\nS b0 A 21 A 00 A 18 A f8 A P\n"
                              "S b2 A 21 A S b3 A 00 A 18 N P S b2 N P\n"
                              "S b0 P\nS b0 A hm A 21\n"
                              "S b2 A 20 A S b3 A 17 N P # as it is\nS b0 A 88 ";

static const char requests[] = "get 58 88\nset 58 21 3.3\nget 58 21\n";
static const char lines[] = "write 58 21 00 18 pec\nwrite 58\n";
static const pmb_choice choices[] = {
    {6, PMB_ALL_KNOWN, PMB_END}, {6, PMB_LATE, PMB_GO_ON}, {0, PMB_LATE_FIXED_MODE, PMB_GO_ON}};
static const uint8_t devices[] = {0x59};

static int same(const pmb_result *a, const pmb_result *b)
{
    return a->status == b->status && a->fault == b->fault && a->device == b->device &&
           a->command == b->command && a->length == b->length && a->packets == b->packets &&
           a->refusals == b->refusals;
}

static int is_status(const pmb_result *told, int32_t status)
{
    return told->status == status && told->fault == 0 && told->device == -1 && told->command == -1 &&
           told->length == 0 && told->packets == 0 && told->refusals == 0;
}

static int stays(const char *out, size_t size)
{
    size_t i;
    for (i = 0; i < size; i++)
        if (out[i] != '~') return 0;
    return 1;
}

/* ---- a profile that is read once */

typedef size_t with_text(const char *, size_t, const char *, size_t, char *, size_t, pmb_result *);
typedef size_t with_handle(pmb_profile *, const char *, size_t, char *, size_t, pmb_result *);

static const struct call {
    with_text *text;
    with_handle *handle;
    const char *input;
} calls[] = {
    {pmb_show, pmb_profile_show, capture},
    {pmb_check, pmb_profile_check, capture},
    {pmb_build, pmb_profile_build, lines},
    {pmb_run, pmb_profile_run, requests},
};
#define CALLS (sizeof calls / sizeof *calls)

/* The same, and nothing behind the room, with rooms of a few sizes. */
static int answers_as_before(pmb_profile *profile)
{
    static const size_t rooms[] = {0, 1, 17, MOST / 2};
    size_t i, k;
    for (i = 0; i < CALLS * 4; i++) {
        const struct call *it = &calls[i / 4];
        const size_t room = rooms[i % 4], size = strlen(it->input);
        char right[MOST], out[MOST];
        pmb_result told, expected;
        memset(right, '~', sizeof right);
        memset(out, '~', sizeof out);
        it->text(toml, sizeof toml - 1, it->input, size, right, room, &expected);
        EXPECT(it->handle(profile, it->input, size, out, room, &told) == expected.length);
        EXPECT(expected.length > 17 && same(&told, &expected) && memcmp(out, right, MOST) == 0);
    }
    for (k = 0; k < 2 * sizeof choices / sizeof *choices; k++) {
        char right[MOST], out[MOST];
        pmb_result told, expected;
        pmb_json(toml, sizeof toml - 1, capture, sizeof capture - 1, &choices[k / 2], devices, k % 2,
                 right, MOST, &expected);
        EXPECT(pmb_profile_json(profile, capture, sizeof capture - 1, &choices[k / 2], devices, k % 2,
                                out, MOST, &told) == expected.length);
        EXPECT(same(&told, &expected) && memcmp(out, right, expected.length) == 0);
    }
    return 0;
}

static int profiles(void)
{
    static const char bad[] = "[[device]]\naddress = 0x58\n";
    static const pmb_choice wrong = {13, PMB_ALL_KNOWN, PMB_END};
    static const uint8_t eight_bits[] = {0xb0};
    pmb_profile profile = {0}, other = {0}, third = {0};
    pmb_result told;
    char out[64];
    EXPECT(pmb_profile_open(&profile, toml, sizeof toml - 1, &told) == PMB_OK);
    EXPECT(is_status(&told, PMB_OK) && profile.held != NULL);
    if (answers_as_before(&profile)) return 1;
    EXPECT(pmb_profile_json(&profile, "", 0, &wrong, devices, 0, out, sizeof out, &told) == 0);
    EXPECT(is_status(&told, PMB_BAD_DIGITS));
    EXPECT(pmb_profile_json(&profile, "", 0, choices, eight_bits, 1, out, sizeof out, &told) == 0);
    EXPECT(is_status(&told, PMB_BAD_DEVICE));
    EXPECT(pmb_profile_json(&third, "", 0, choices, eight_bits, 1, out, sizeof out, &told) == 0);
    EXPECT(is_status(&told, PMB_BAD_DEVICE));
    /* Each of several handles outlives the others. */
    EXPECT(pmb_profile_share(&profile, &other) == PMB_OK);
    EXPECT(pmb_profile_share(&other, &third) == PMB_OK);
    EXPECT(pmb_profile_share(&other, &third) == PMB_OK);
    pmb_profile_close(&profile);
    EXPECT(profile.held == NULL);
    pmb_profile_close(&profile);
    if (answers_as_before(&other)) return 1;
    pmb_profile_close(&other);
    if (answers_as_before(&third)) return 1;
    /* What is open is closed first, also where the new profile has a fault. */
    EXPECT(pmb_profile_open(&third, toml, sizeof toml - 1, &told) == PMB_OK);
    EXPECT(pmb_profile_open(&third, bad, sizeof bad - 1, &told) == PMB_BAD_PROFILE);
    EXPECT(told.status == PMB_BAD_PROFILE && told.fault == PMB_MISSING_KEY && told.device == 0);
    EXPECT(third.held == NULL);
    return 0;
}

/* ---- closed handles, and those of another kind */

static int closed(void)
{
    pmb_profile profile = {0}, other = {0};
    pmb_reader reader = {0}, wrong;
    pmb_profile as_profile;
    pmb_result told;
    char out[8] = "~~~~~~~";
    size_t i;
    for (i = 0; i < CALLS; i++) {
        EXPECT(calls[i].handle(&profile, "S", 1, out, sizeof out, &told) == 0);
        EXPECT(is_status(&told, PMB_CLOSED) && stays(out, 7));
    }
    EXPECT(pmb_profile_json(&profile, "S", 1, choices, devices, 0, out, sizeof out, &told) == 0);
    EXPECT(is_status(&told, PMB_CLOSED) && stays(out, 7));
    EXPECT(pmb_profile_open(&other, toml, sizeof toml - 1, &told) == PMB_OK);
    EXPECT(pmb_profile_share(&profile, &other) == PMB_CLOSED && other.held == NULL);
    EXPECT(pmb_reader_open(&reader, &profile, choices, devices, 0) == PMB_CLOSED);
    EXPECT(pmb_reader_feed(&reader, "S", 1) == PMB_CLOSED && pmb_reader_end(&reader) == PMB_CLOSED);
    EXPECT(pmb_reader_take(&reader, out, sizeof out, &told) == 0);
    EXPECT(is_status(&told, PMB_CLOSED) && stays(out, 7));
    pmb_reader_close(&reader);
    /* Handles whose types were mixed up. */
    EXPECT(pmb_profile_open(&profile, toml, sizeof toml - 1, &told) == PMB_OK);
    EXPECT(pmb_reader_open(&reader, &profile, choices, devices, 0) == PMB_OK);
    wrong.held = profile.held;
    EXPECT(pmb_reader_feed(&wrong, "S", 1) == PMB_CLOSED && pmb_reader_end(&wrong) == PMB_CLOSED);
    EXPECT(pmb_reader_take(&wrong, out, sizeof out, &told) == 0 && is_status(&told, PMB_CLOSED));
    profile.held = wrong.held;
    as_profile.held = reader.held;
    EXPECT(pmb_profile_show(&as_profile, "S", 1, out, sizeof out, &told) == 0);
    EXPECT(is_status(&told, PMB_CLOSED) && stays(out, 7));
    EXPECT(pmb_profile_share(&as_profile, &other) == PMB_CLOSED);
    reader.held = as_profile.held;
    pmb_reader_close(&reader);
    pmb_profile_close(&profile);
    return 0;
}

/* ---- a reader */

/* Takes what is ready, `step` bytes at a time, behind what was taken before. */
static int take(pmb_reader *reader, char *out, size_t *length, size_t step, pmb_result *told)
{
    for (;;) {
        const size_t moved = pmb_reader_take(reader, out + *length, step, told);
        EXPECT(moved <= step && told->length >= moved && *length + moved < MOST);
        EXPECT(told->status == (told->length > moved ? PMB_NO_ROOM : PMB_OK));
        *length += moved;
        if (told->status == PMB_OK) return 0;
        EXPECT(moved == step);
    }
}

/* Feeds a text in pieces whose lengths the seed draws, and takes after some of them. */
static int fed(pmb_profile *profile, const pmb_choice *choice, size_t count, unsigned seed)
{
    char right[MOST], out[MOST];
    pmb_result expected, told;
    pmb_reader reader = {0};
    size_t used = 0, length = 0;
    const size_t whole = pmb_json(toml, sizeof toml - 1, capture, sizeof capture - 1, choice, devices,
                                  count, right, MOST, &expected);
    EXPECT(expected.status == PMB_OK && whole > 200);
    EXPECT(pmb_reader_open(&reader, profile, choice, devices, count) == PMB_OK);
    while (used < sizeof capture - 1) {
        size_t piece = seed == 0 ? sizeof capture : seed == 1 ? 1 : (seed = seed * 69069 + 1) >> 27;
        int32_t status;
        if (piece > sizeof capture - 1 - used) piece = sizeof capture - 1 - used;
        status = pmb_reader_feed(&reader, piece == 0 ? NULL : capture + used, piece);
        EXPECT(status == PMB_OK || (choice->bad_words == PMB_END && status == PMB_ENDED));
        used += piece;
        if (seed % 3 == 0 && take(&reader, out, &length, 1 + seed % 700, &told)) return 1;
    }
    (void)pmb_reader_end(&reader);
    if (take(&reader, out, &length, 1000, &told)) return 1;
    EXPECT(length == whole && memcmp(out, right, whole) == 0);
    EXPECT(told.packets == expected.packets && told.refusals == expected.refusals);
    /* It has ended. */
    EXPECT(pmb_reader_feed(&reader, "S b0 P ", 7) == PMB_ENDED && pmb_reader_end(&reader) == PMB_ENDED);
    EXPECT(pmb_reader_take(&reader, out, MOST, &told) == 0 && told.status == PMB_OK);
    EXPECT(told.length == 0 && told.packets == expected.packets);
    pmb_reader_close(&reader);
    EXPECT(reader.held == NULL);
    return 0;
}

static int readers(void)
{
    pmb_profile profile = {0};
    pmb_reader reader = {0};
    pmb_result told;
    char out[MOST];
    unsigned seed;
    size_t k;
    EXPECT(pmb_profile_open(&profile, toml, sizeof toml - 1, &told) == PMB_OK);
    for (k = 0; k < sizeof choices / sizeof *choices; k++)
        for (seed = 0; seed < 60; seed++)
            if (fed(&profile, &choices[k], seed % 2, seed)) return 1;
    /* An object is ready as soon as its packet is there, also where the profile is closed. */
    EXPECT(pmb_reader_open(&reader, &profile, choices, devices, 0) == PMB_OK);
    pmb_profile_close(&profile);
    EXPECT(pmb_reader_feed(&reader, "S b0 A 03 A P", 13) == PMB_OK);
    EXPECT(pmb_reader_take(&reader, out, MOST, &told) == 0 && told.status == PMB_OK);
    EXPECT(pmb_reader_feed(&reader, "\n", 1) == PMB_OK);
    EXPECT(pmb_reader_take(&reader, out, 0, &told) == 0 && told.status == PMB_NO_ROOM);
    EXPECT(pmb_reader_take(&reader, out, MOST, &told) == told.length && told.packets == 1);
    EXPECT(memcmp(out, "{\"at\":0,\"line\":1,\"column\":1,\"kind\":\"write\"", 41) == 0);
    /* What is open is closed first. */
    EXPECT(pmb_profile_open(&profile, toml, sizeof toml - 1, &told) == PMB_OK);
    EXPECT(pmb_reader_open(&reader, &profile, choices, devices, 1) == PMB_OK);
    EXPECT(pmb_reader_take(&reader, out, MOST, &told) == 0 && told.packets == 0);
    {
        static const pmb_choice wrong[] = {{6, 3, PMB_END}, {13, PMB_LATE, PMB_END}};
        static const uint8_t eight_bits[] = {0x58, 0x80};
        EXPECT(pmb_reader_open(&reader, &profile, &wrong[0], eight_bits, 2) == PMB_BAD_CHOICE);
        EXPECT(reader.held == NULL);
        EXPECT(pmb_reader_open(&reader, &profile, &wrong[1], eight_bits, 2) == PMB_BAD_DIGITS);
        EXPECT(reader.held == NULL);
        EXPECT(pmb_reader_open(&reader, &profile, choices, eight_bits, 2) == PMB_BAD_DEVICE);
        EXPECT(reader.held == NULL);
    }
    pmb_profile_close(&profile);
    return 0;
}

#ifdef REFUSES
/* ---- what is given back */

/* A profile of so many devices, each with so many pages and phases. */
static size_t sized_profile(char *text, size_t room, int count, int pages, int phases)
{
    size_t length = count == 0 ? (size_t)snprintf(text, room, "device = []\n") : 0;
    int i;
    for (i = 0; i < count; i++)
        length += (size_t)snprintf(text + length, room - length,
                                   "[[device]]\naddress = %d\npec = \"off\"\npages = %d\nphases = %d\n",
                                   0x10 + i, pages, phases);
    return length;
}

/* Handles of each kind over a profile and a capture that comes in pieces, each opened over an open one
 * too and closed with something left in it, the profile first: no block stays. */
static int all_given_back(const char *text, size_t length, const char *given, size_t size,
                          const pmb_choice *choice, const uint8_t *asked, size_t count)
{
    static char out[1 << 16];
    pmb_profile profile = {0}, other = {0};
    pmb_reader reader = {0};
    pmb_bus bus = {0};
    pmb_result told;
    pmb_item item;
    const size_t piece = 1 + size / 3;
    size_t used, i;
    allocations = 0, counting = 1;
    for (i = 0; i < 2; i++) {
        EXPECT(pmb_profile_open(&profile, text, length, &told) == PMB_OK);
        EXPECT(pmb_profile_share(&profile, &other) == PMB_OK);
        pmb_profile_show(&other, given, size, out, sizeof out, &told);
        pmb_profile_json(&other, given, size, choice, asked, count, out, sizeof out, &told);
        EXPECT(told.status != PMB_NO_MEMORY);
        EXPECT(pmb_reader_open_items(&reader, &profile, choice, asked, count) == PMB_OK);
        for (used = 0; used + piece < size; used += piece) {
            EXPECT(pmb_reader_feed(&reader, given + used, piece) != PMB_NO_MEMORY);
            pmb_reader_next(&reader, &item, &told);
        }
        EXPECT(pmb_reader_open(&reader, &other, choice, asked, count) == PMB_OK);
        for (used = 0; used + piece < size; used += piece) {
            EXPECT(pmb_reader_feed(&reader, given + used, piece) != PMB_NO_MEMORY);
            pmb_reader_take(&reader, out, piece, &told);
        }
        EXPECT(pmb_bus_open(&bus, &other) == PMB_OK);
        pmb_bus_request(&bus, "get 10 88", 9, &told);
        EXPECT(told.status == PMB_OK);
        pmb_bus_events(&bus, out, 3, &told);
    }
    EXPECT(allocations > 10 && live > 3);
    pmb_profile_close(&profile);
    pmb_profile_close(&other);
    EXPECT(live > 1);
    pmb_reader_close(&reader);
    pmb_bus_close(&bus);
    counting = 0;
    EXPECT(live == 0);
    return 0;
}

/* The same for devices, pages and phases, digits, devices asked for and captures of many sizes. */
static int sizes(void)
{
    static const int devices_of[] = {0, 1, 2, 7, 64}, pages_of[] = {1, 2, 32}, phases_of[] = {1, 3, 255};
    static const size_t times[] = {0, 1, 2, 9, 100};
    static char text[1 << 14], given[101 * sizeof capture];
    static uint8_t asked[64];
    size_t i, k, m, size;
    for (i = 0; i < sizeof asked; i++) asked[i] = (uint8_t)(0x10 + i);
    for (i = 0; i < 15; i++) {
        const size_t length =
            sized_profile(text, sizeof text, devices_of[i % 5], pages_of[i / 5], phases_of[i / 5]);
        EXPECT(length < sizeof text);
        for (k = 0; k < 5; k++) {
            const pmb_choice choice = {(uint8_t)((5 * i + k) % 13), (uint8_t)(i % 3), PMB_GO_ON};
            for (size = 0, m = 0; m < times[k]; m++, size += sizeof capture)
                memcpy(given + size, capture, sizeof capture - 1), given[size + sizeof capture - 1] = '\n';
            if (all_given_back(text, length, given, size, &choice, asked, times[k] % 65)) return 1;
        }
    }
    return 0;
}

/* ---- each allocation refused */

/* A round with handles, in which the allocation of the number `refused` is refused. */
static int refused_round(int *was_whole)
{
    pmb_profile profile = {0}, other = {0};
    pmb_reader reader = {0};
    pmb_result told;
    char out[MOST], right[MOST];
    size_t length = 0, whole;
    int32_t status;
    whole = pmb_json(toml, sizeof toml - 1, capture, sizeof capture - 1, &choices[1], devices, 0, right,
                     MOST, &told);
    EXPECT(told.status == PMB_OK);
    counting = 1;
    *was_whole = 0;
    status = pmb_profile_open(&profile, toml, sizeof toml - 1, &told);
    EXPECT(status == told.status && (status == PMB_OK || (status == PMB_NO_MEMORY && !profile.held)));
    if (status == PMB_OK) {
        status = pmb_profile_share(&profile, &other);
        EXPECT(status == PMB_OK || (status == PMB_NO_MEMORY && !other.held));
        pmb_profile_run(&profile, requests, sizeof requests - 1, out, MOST, &told);
        EXPECT(told.status == PMB_OK || is_status(&told, PMB_NO_MEMORY));
        status = pmb_reader_open(&reader, &profile, &choices[1], devices, 0);
        EXPECT(status == PMB_OK || (status == PMB_NO_MEMORY && !reader.held));
        if (status == PMB_OK) {
            status = pmb_reader_feed(&reader, capture, sizeof capture - 1);
            if (status == PMB_OK) status = pmb_reader_end(&reader);
            EXPECT(status == PMB_ENDED || status == PMB_OK || status == PMB_NO_MEMORY);
            if (take(&reader, out, &length, MOST, &told)) return 1;
            /* What is taken is a front of the right text. */
            EXPECT(length <= whole && memcmp(out, right, length) == 0);
            if (status == PMB_NO_MEMORY) {
                EXPECT(pmb_reader_feed(&reader, "S", 1) == PMB_NO_MEMORY);
            } else {
                EXPECT(length == whole);
                *was_whole = 1;
            }
        }
    }
    pmb_reader_close(&reader);
    pmb_profile_close(&other);
    pmb_profile_close(&profile);
    counting = 0;
    EXPECT(live == 0);
    return 0;
}

static int refusals(void)
{
    int was_whole = 0;
    for (later = 0; later < 2; later++) {
        for (refused = 1;; refused++) {
            allocations = 0;
            if (refused_round(&was_whole)) return fail("a refused allocation", (int)refused);
            if (allocations < refused) break;
        }
        EXPECT(refused > 10 && was_whole);
    }
    refused = 0;
    return 0;
}
#endif

/* ---- threads */

static void *one_thread(void *given)
{
    pmb_profile *mine = (pmb_profile *)given;
    int failed = answers_as_before(mine);
    unsigned seed;
    for (seed = 0; seed < 20 && !failed; seed++) failed = fed(mine, &choices[1], 0, seed);
    pmb_profile_close(mine);
    return failed ? given : NULL;
}

static int threads(void)
{
    pmb_profile profile = {0}, shared[THREADS];
    pthread_t thread[THREADS];
    pthread_attr_t attributes;
    pmb_result told;
    int i, failed = 0;
    EXPECT(pmb_profile_open(&profile, toml, sizeof toml - 1, &told) == PMB_OK);
    EXPECT(pthread_attr_init(&attributes) == 0);
    EXPECT(pthread_attr_setstacksize(&attributes, 1 << 20) == 0);
    for (i = 0; i < THREADS; i++) {
        shared[i].held = NULL;
        EXPECT(pmb_profile_share(&profile, &shared[i]) == PMB_OK);
        EXPECT(pthread_create(&thread[i], &attributes, one_thread, &shared[i]) == 0);
    }
    pmb_profile_close(&profile);
    for (i = 0; i < THREADS; i++) {
        void *result;
        EXPECT(pthread_join(thread[i], &result) == 0);
        failed |= result != NULL;
    }
    EXPECT(pthread_attr_destroy(&attributes) == 0);
    return failed;
}

int main(void)
{
    if (profiles() || closed() || readers() || threads()) return 1;
#ifdef REFUSES
    if (sizes() || refusals()) return 1;
#endif
    (void)counting, (void)later, (void)allocations, (void)live, (void)refused;
    return 0;
}
