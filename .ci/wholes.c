/* Calls each function over whole inputs of pmb.h at its limits, alone and from four threads, and, with
 * REFUSES defined and the linker's --wrap of malloc, realloc and free, with each allocation refused.
 * What is expected is worked out by hand from the standard and the rules in docs/. C99 and C++. */
#include <pthread.h>
#include <stdio.h>
#include <stdlib.h>
#include <string.h>

#include "pmb.h"

#define THREADS 4
#define MOST 4096
#ifndef STACK
#define STACK (1 << 20)
#endif

static int fail(const char *what, int line)
{
    fprintf(stderr, "wholes: line %d: %s\n", line, what);
    return 1;
}

#define EXPECT(holds)                                                                              \
    do {                                                                                           \
        if (!(holds)) return fail(#holds, __LINE__);                                               \
    } while (0)

#include "allocations.h"

/* ---- what is called */

static const char profile[] = "[[device]]\n"
                              "address = 0x58\n"
                              "pec = \"optional\"\n"
                              "[[device.command]]\n"
                              "name = \"READ_VIN\"\n"
                              "initial = \"00d3\"\n";

enum call { SHOW, CHECK, BUILD, RUN, JSON };

typedef struct input {
    enum call call;
    const char *text;
    const char *right;
    uint64_t packets, refusals;
} input;

/* VOUT_COMMAND 1800h by VOUT_MODE 17h: 6144 / 512 V. The packet error code of b0 21 00 18 is f8. */
#define PACKET "S b0 A 21 A 00 A 18 A f8 A P\n"

static const input inputs[] = {
    {SHOW, "", "", 0, 0},
    {SHOW, PACKET, "write 58 21 00 18 pec # VOUT_COMMAND 12\n", 1, 0},
    {SHOW, PACKET "hm " PACKET, "write 58 21 00 18 pec # VOUT_COMMAND 12\n# bad token at byte 29\n", 1, 1},
    {CHECK, "", "packets 0 refusals 0\n", 0, 0},
    {CHECK, PACKET PACKET, "packets 2 refusals 0\n", 2, 0},
    {CHECK, "S S", "# refusal at 1: WrongEvent, expected Byte\npackets 0 refusals 1\n", 0, 1},
    {BUILD, "", "", 0, 0},
    {BUILD, "write 58 03\r\n\nwrite 58", "S b0 A 03 A P\n# line 3: BadWord at 8\n", 1, 1},
    {BUILD, "write 58 21 00 18 pec\n", PACKET, 1, 0},
    {RUN, "", "", 0, 0},
    /* d300h in LINEAR11: the exponent -6 and the mantissa 768. */
    {RUN, "get 58 88\nget 59 88\n",
     "S b0 A 88 A S b1 A 00 A d3 N P\n# 12\n# line 2: UnknownDevice\n", 1, 1},
    {JSON, "", "{\"kind\":\"end\",\"packets\":0,\"refusals\":0,\"bad_tokens\":0}\n", 0, 0},
    {JSON, PACKET,
     "{\"at\":0,\"line\":1,\"column\":1,\"kind\":\"write\",\"device\":\"58\",\"code\":\"21\","
     "\"command\":\"VOUT_COMMAND\",\"page\":0,\"bytes\":\"0018\",\"pec\":true,\"value\":\"12\","
     "\"number\":12,\"mode\":\"assumed\",\"unit\":\"V\"}\n"
     "{\"kind\":\"device\",\"device\":\"58\",\"writes\":1,\"reads\":0,\"calls\":0,\"refused\":0,"
     "\"refusals\":0}\n"
     "{\"kind\":\"end\",\"packets\":1,\"refusals\":0,\"bad_tokens\":0}\n",
     1, 0},
    {JSON, "# 1.5 s\nS 40 N P\n# 2\nS 19 N P",
     "{\"at\":0,\"line\":2,\"column\":1,\"time\":\"1.5\",\"kind\":\"refused\",\"device\":\"20\","
     "\"refused\":\"address\",\"sent\":\"\"}\n"
     "{\"at\":4,\"line\":4,\"column\":1,\"kind\":\"alert\",\"device\":null}\n"
     "{\"kind\":\"device\",\"device\":\"20\",\"writes\":0,\"reads\":0,\"calls\":0,\"refused\":1,"
     "\"refusals\":0}\n"
     "{\"kind\":\"end\",\"packets\":2,\"refusals\":0,\"bad_tokens\":0}\n",
     2, 0},
};

static const pmb_choice usual = {6, PMB_ALL_KNOWN, PMB_END};
static const uint8_t none[1] = {0};

static size_t call_on(enum call call, const char *toml, size_t toml_length, const char *text,
                      size_t length, char *out, size_t room, pmb_result *told)
{
    switch (call) {
    case SHOW: return pmb_show(toml, toml_length, text, length, out, room, told);
    case CHECK: return pmb_check(toml, toml_length, text, length, out, room, told);
    case BUILD: return pmb_build(toml, toml_length, text, length, out, room, told);
    case RUN: return pmb_run(toml, toml_length, text, length, out, room, told);
    case JSON: break;
    }
    return pmb_json(toml, toml_length, text, length, &usual, none, 0, out, room, told);
}

static int all_are(const char *bytes, size_t length, char byte)
{
    size_t i;
    for (i = 0; i < length; i++)
        if (bytes[i] != byte) return 0;
    return 1;
}

static int tells_but_place(const pmb_result *told, int status, int fault, int device, int command,
                           size_t length, uint64_t packets, uint64_t refusals)
{
    return told->status == status && told->fault == fault && told->device == device &&
           told->command == command && told->length == length && told->packets == packets &&
           told->refusals == refusals;
}

static int tells(const pmb_result *told, int status, int fault, int device, int command,
                 size_t length, uint64_t packets, uint64_t refusals)
{
    return tells_but_place(told, status, fault, device, command, length, packets, refusals) &&
           told->line == 0 && told->column == 0;
}

/* ---- rooms of each size */

static int rooms_of(const input *it)
{
    const size_t length = strlen(it->right), most = length + 3;
    size_t room;
    for (room = 0; room <= most; room++) {
        char bytes[MOST];
        const size_t kept = room < length ? room : length;
        pmb_result told;
        EXPECT(most + 2 <= MOST);
        memset(bytes, '~', sizeof bytes);
        memset(&told, 0x5a, sizeof told);
        EXPECT(call_on(it->call, profile, sizeof profile - 1, it->text, strlen(it->text), bytes + 1,
                       room, &told) == length);
        EXPECT(tells(&told, room < length ? PMB_NO_ROOM : PMB_OK, 0, -1, -1, length, it->packets,
                     it->refusals));
        EXPECT(bytes[0] == '~' && memcmp(bytes + 1, it->right, kept) == 0);
        EXPECT(all_are(bytes + 1 + kept, sizeof bytes - 1 - kept, '~'));
    }
    return 0;
}

static int rooms(void)
{
    size_t i;
    for (i = 0; i < sizeof inputs / sizeof *inputs; i++)
        if (rooms_of(&inputs[i])) return fail(inputs[i].right, __LINE__);
    return 0;
}

/* ---- bad profiles */

#define DEVICE "[[device]]\naddress = 0x10\npec = \"off\"\n"
#define COMMAND "[[device.command]]\n"

static const struct bad {
    const char *toml;
    int fault, device, command;
} bad_profiles[] = {
    {"", PMB_MISSING_KEY, -1, -1},
    {"device", PMB_NOT_TOML, -1, -1},
    {"\xff", PMB_NOT_TOML, -1, -1},
    {"devices = []", PMB_UNKNOWN_KEY, -1, -1},
    {"device = 1", PMB_WRONG_TYPE, -1, -1},
    {"device = [1]", PMB_WRONG_TYPE, 0, -1},
    {"[[device]]\npages = 1", PMB_MISSING_KEY, 0, -1},
    {"[[device]]\naddress = 0x0c\npec = \"off\"", PMB_BAD_ADDRESS, 0, -1},
    {DEVICE DEVICE, PMB_ADDRESS_TWICE, 1, -1},
    {DEVICE "vout_mode = 256", PMB_BAD_VALUE, 0, -1},
    {DEVICE "pages = 2\nvout_mode = [0x14]", PMB_BAD_VALUE, 0, -1},
    {DEVICE "name = \"\"", PMB_BAD_NAME, 0, -1},
    {"ignore = [0x50, 128]\ndevice = []", PMB_BAD_VALUE, -1, -1},
    {"ignore = [0x10]\n" DEVICE, PMB_BAD_VALUE, 0, -1},
    {DEVICE "pages = 33", PMB_BAD_PAGES, 0, -1},
    {"[[device]]\naddress = 0x11\npec = \"on\"\n" DEVICE COMMAND "name = \"NO_SUCH\"", PMB_UNKNOWN_NAME, 1, 0},
    {DEVICE COMMAND "name = \"PAGE\"\n" COMMAND "code = 0xd0\nname = \"x\"", PMB_BAD_NAME, 0, 1},
    {DEVICE COMMAND "code = 0xd0\nname = \"X\"\nwrite = \"three\"", PMB_BAD_FORM, 0, 0},
    {DEVICE "vout_direct = { m = 0, b = 0, r = 0 }", PMB_BAD_COEFFICIENTS, 0, -1},
    {DEVICE COMMAND "name = \"PAGE\"\n" COMMAND "name = \"PAGE\"", PMB_CODE_TWICE, 0, 1},
    {DEVICE COMMAND "name = \"READ_VIN\"\ninitial = \"00\"", PMB_BAD_INITIAL, 0, 0},
    {DEVICE COMMAND "name = \"READ_VIN\"\ninitial = [\"00d3\", \"00d3\"]", PMB_BAD_INITIAL, 0, 0},
    {DEVICE "phases = 0", PMB_BAD_VALUE, 0, -1},
    {DEVICE "protect = 1", PMB_WRONG_TYPE, 0, -1},
    {DEVICE "protect = true\nstandard = false", PMB_BAD_VALUE, 0, -1},
    {DEVICE "also = 0x10", PMB_WRONG_TYPE, 0, -1},
    {DEVICE "also = [0x10, 0x5b]", PMB_BAD_VALUE, 0, -1},
    {DEVICE "protect = true\n" COMMAND "name = \"WRITE_PROTECT\"\ninitial = \"01\"", PMB_BAD_INITIAL, 0, -1},
    {DEVICE COMMAND "name = \"READ_VIN\"\nunit = \"\"", PMB_BAD_VALUE, 0, 0},
    {DEVICE COMMAND "name = \"MFR_ID\"\nunit = \"V\"", PMB_UNKNOWN_KEY, 0, 0},
    {DEVICE COMMAND "name = \"STATUS_CML\"\nbits = { 8 = \"A\" }", PMB_BAD_VALUE, 0, 0},
    {DEVICE COMMAND "name = \"STATUS_CML\"\nbits = { 0 = \"A\", 1 = \"A\" }", PMB_BAD_NAME, 0, 0},
    {DEVICE COMMAND "name = \"READ_IOUT\"\nphased = 1", PMB_WRONG_TYPE, 0, 0},
};

static int is_refused(const char *toml, size_t length, int fault, int device, int command)
{
    int call;
    for (call = SHOW; call <= JSON; call++) {
        char bytes[64];
        pmb_result told;
        memset(bytes, '~', sizeof bytes);
        memset(&told, 0x5a, sizeof told);
        EXPECT(call_on((enum call)call, toml, length, PACKET, sizeof PACKET - 1, bytes, sizeof bytes,
                       &told) == 0);
        EXPECT(tells(&told, PMB_BAD_PROFILE, fault, device, command, 0, 0, 0));
        EXPECT(all_are(bytes, sizeof bytes, '~'));
    }
    return 0;
}

static int faults(void)
{
    char many[1024] = "device = [";
    size_t i;
    for (i = 0; i < sizeof bad_profiles / sizeof *bad_profiles; i++) {
        const struct bad *bad = &bad_profiles[i];
        if (is_refused(bad->toml, strlen(bad->toml), bad->fault, bad->device, bad->command))
            return fail(bad->toml, __LINE__);
    }
    for (i = 0; i < 64; i++) strcat(many, "1,");
    strcat(many, "1]");
    return is_refused(many, strlen(many), PMB_TOO_MANY_DEVICES, -1, -1);
}

/* Profiles with a fault, the first line that is written of it, a word of those that help, and the line
 * and column. */
static const struct explained {
    const char *toml;
    int fault, device, command;
    const char *first, *helps;
    uint32_t line, column;
} explained_profiles[] = {
    {"[[device]]\naddress = 0xb0\npec = \"on\"\n", PMB_BAD_ADDRESS, 0, -1,
     "pmb: profile: BadAddress in device 0\n", "8-bit form of 58h", 2, 1},
    {"\nx = \n", PMB_NOT_TOML, -1, -1, "pmb: profile: NotToml\n", "line 2, column 5: ", 2, 5},
    {DEVICE COMMAND "code = 0xd0\nname = \"X\"\nwrite = \"wrod\"\n", PMB_BAD_FORM, 0, 0,
     "pmb: profile: BadForm in device 0 command 0\n", "wrod", 7, 1},
};

static int is_explained(const struct explained *it)
{
    const size_t toml = strlen(it->toml), first = strlen(it->first);
    char whole[MOST], bytes[MOST];
    pmb_result told;
    const size_t length = pmb_profile_fault(it->toml, toml, whole, sizeof whole - 1, &told);
    size_t room;
    EXPECT(length > first && length < sizeof whole - 1 && whole[length - 1] == '\n');
    whole[length] = 0;
    EXPECT(memcmp(whole, it->first, first) == 0 && strstr(whole + first, it->helps) != NULL);
    for (room = 0; room <= length + 2; room++) {
        const size_t kept = room < length ? room : length;
        memset(bytes, '~', sizeof bytes);
        memset(&told, 0x5a, sizeof told);
        EXPECT(pmb_profile_fault(it->toml, toml, bytes + 1, room, &told) == length);
        EXPECT(tells_but_place(&told, PMB_BAD_PROFILE, it->fault, it->device, it->command, length, 0,
                               0));
        EXPECT(told.line == it->line && told.column == it->column);
        EXPECT(bytes[0] == '~' && memcmp(bytes + 1, whole, kept) == 0);
        EXPECT(all_are(bytes + 1 + kept, sizeof bytes - 1 - kept, '~'));
    }
    return 0;
}

static int explanations(void)
{
    char bytes[] = "~~~~~~~";
    pmb_result told;
    size_t i;
    for (i = 0; i < sizeof explained_profiles / sizeof *explained_profiles; i++)
        if (is_explained(&explained_profiles[i]))
            return fail(explained_profiles[i].first, __LINE__);
    /* Of a profile without a fault nothing is written. */
    EXPECT(pmb_profile_fault(profile, sizeof profile - 1, bytes, sizeof bytes, &told) == 0);
    EXPECT(tells(&told, PMB_OK, 0, -1, -1, 0, 0, 0) && strcmp(bytes, "~~~~~~~") == 0);
    return 0;
}

/* Arrays, tables and dotted keys may be 80 deep, which takes most of the stack. */
static int nested(void)
{
    static const char *const opens[] = {"[", "{a=", ".a"}, *const ends[] = {"]", "}", ""};
    size_t kind;
    for (kind = 0; kind < 3; kind++) {
        size_t depth, i;
        for (depth = 79; depth <= 81; depth++) {
            const int is_toml = depth + (kind == 2) <= 80;
            char toml[512] = "device";
            if (kind < 2) strcat(toml, " = ");
            for (i = 0; i < depth; i++) strcat(toml, opens[kind]);
            strcat(toml, kind == 0 ? "" : kind == 1 ? "1" : " = 1");
            for (i = 0; i < depth; i++) strcat(toml, ends[kind]);
            if (is_refused(toml, strlen(toml), is_toml ? PMB_WRONG_TYPE : PMB_NOT_TOML,
                           is_toml && kind == 0 ? 0 : -1, -1))
                return fail(toml, __LINE__);
        }
    }
    return 0;
}

/* ---- choices of JSON */

static int choices(void)
{
    static const uint8_t eight_bits[] = {0xb0};
    unsigned digits, start, bad_words;
    for (digits = 0; digits < 256; digits++)
        for (start = 0; start < 256; start = start < 4 ? start + 1 : start + 251)
            for (bad_words = 0; bad_words < 256; bad_words = bad_words < 3 ? bad_words + 1 : 256) {
                const int32_t status = start > 2 || bad_words > 1 ? PMB_BAD_CHOICE
                                       : digits > 12             ? PMB_BAD_DIGITS
                                                                 : PMB_NO_ROOM;
                const int says = status == PMB_NO_ROOM;
                pmb_choice choice;
                char bytes[8] = "~~~~~~~";
                pmb_result told;
                choice.digits = (uint8_t)digits;
                choice.start = (uint8_t)start;
                choice.bad_words = (uint8_t)bad_words;
                /* (the choice is looked at before the profile, here one of no device) */
                pmb_json("device=[]", 9, "", 0, &choice, none, 0, bytes, 0, &told);
                EXPECT(told.status == status);
                if (!says) EXPECT(tells(&told, status, 0, -1, -1, 0, 0, 0));
                if (!says && digits < 16) {
                    pmb_json("", 0, "", 0, &choice, eight_bits, 1, bytes, sizeof bytes, &told);
                    EXPECT(told.status == status && strcmp(bytes, "~~~~~~~") == 0);
                }
            }
    return 0;
}

/* An address has seven bits: a list with another byte is refused, before the profile is read. */
static int addresses(void)
{
    unsigned address, at;
    for (address = 0; address < 256; address++)
        for (at = 0; at < 3; at++) {
            uint8_t devices[3] = {0, 0x58, 0x7f};
            char bytes[8] = "~~~~~~~";
            pmb_result told;
            devices[at] = (uint8_t)address;
            pmb_json("", 0, "", 0, &usual, devices, 3, bytes, sizeof bytes, &told);
            EXPECT(strcmp(bytes, "~~~~~~~") == 0);
            if (address < 0x80)
                EXPECT(tells(&told, PMB_BAD_PROFILE, PMB_MISSING_KEY, -1, -1, 0, 0, 0));
            else
                EXPECT(tells(&told, PMB_BAD_DEVICE, 0, -1, -1, 0, 0, 0));
        }
    return 0;
}

/* A packet to an address that the profile ignores is neither a packet nor a refusal. */
static int json_of_others(void)
{
    static const char ignores[] = "ignore = [0x50]\ndevice = []\n";
    static const char right[] =
        "{\"at\":1,\"line\":2,\"column\":3,\"time\":\"1\",\"kind\":\"other\",\"device\":\"50\"}\n"
        "{\"kind\":\"device\",\"device\":\"50\",\"writes\":0,\"reads\":0,\"calls\":0,\"refused\":0,"
        "\"refusals\":0,\"others\":1}\n"
        "{\"kind\":\"end\",\"packets\":0,\"refusals\":0,\"bad_tokens\":0,\"others\":1}\n";
    static const char text[] = "# 1 s\nS a0 A 00 S";
    char bytes[MOST];
    pmb_result told;
    size_t length = pmb_json(ignores, sizeof ignores - 1, text, sizeof text - 1, &usual, none, 0,
                             bytes, sizeof bytes, &told);
    EXPECT(tells(&told, PMB_OK, 0, -1, -1, sizeof right - 1, 0, 0));
    EXPECT(length == sizeof right - 1 && memcmp(bytes, right, length) == 0);
    return 0;
}

/* Which objects are wanted, what is known at first, and where reading goes on. */
static int json_as_chosen(void)
{
    static const char end[] = "{\"kind\":\"end\",\"packets\":2,\"refusals\":0,\"bad_tokens\":0}\n";
    static const uint8_t others[] = {0x59, 0x7f, 0};
    pmb_choice choice = usual;
    char bytes[MOST];
    pmb_result told;
    size_t length = pmb_json(profile, sizeof profile - 1, PACKET PACKET, 2 * (sizeof PACKET - 1),
                             &choice, others, sizeof others, bytes, sizeof bytes, &told);
    EXPECT(told.status == PMB_OK && length == sizeof end - 1 && memcmp(bytes, end, length) == 0);
    /* VOUT_MODE isn't known, so the voltage isn't either; with the profile's it is. */
    choice.start = PMB_LATE;
    length = pmb_json(profile, sizeof profile - 1, PACKET, sizeof PACKET - 1, &choice, none, 0, bytes,
                      sizeof bytes - 1, &told);
    bytes[length] = 0;
    EXPECT(told.status == PMB_OK && strstr(bytes, "\"raw\":\"unknown\"") != NULL);
    choice.start = PMB_LATE_FIXED_MODE;
    length = pmb_json(profile, sizeof profile - 1, PACKET, sizeof PACKET - 1, &choice, none, 0, bytes,
                      sizeof bytes - 1, &told);
    bytes[length] = 0;
    EXPECT(told.status == PMB_OK && strstr(bytes, "\"value\":\"12\"") != NULL);
    EXPECT(pmb_json(profile, sizeof profile - 1, "hm\n" PACKET, sizeof PACKET + 2, &usual, none, 0,
                    bytes, sizeof bytes, &told) > 0);
    EXPECT(told.packets == 0 && told.refusals == 1);
    choice.bad_words = PMB_GO_ON;
    EXPECT(pmb_json(profile, sizeof profile - 1, "hm\n" PACKET, sizeof PACKET + 2, &choice, none, 0,
                    bytes, sizeof bytes, &told) > 0);
    EXPECT(told.packets == 1 && told.refusals == 1);
    return 0;
}

/* ---- recordings */

#define WRITTEN "1.5: i2c_write: i2c-0 #0 a=058 f=0000 l=1 [03]\n1.6: i2c_result: i2c-0 n=1 ret=1\n"
#define ASKED(number) "i2c-" number ": Start\ni2c-" number ": Address write: b0\n"
#define ENDED(number) "i2c-" number ": ACK\ni2c-" number ": Stop\n"

static const struct recorded {
    pmb_recorder recorder;
    const char *bus, *text, *right;
    uint64_t packets, refusals;
} recordings[] = {
    {{0, PMB_KERNEL, 0, 0}, "", "", "# no packets\n", 0, 1},
    {{0, PMB_KERNEL, 0, 0}, "", WRITTEN, "# 1.5 s\nS b0 A 03 A P\n", 1, 0},
    {{0, PMB_KERNEL, 1, 0}, "i2c-0", WRITTEN, "# 1.5 s\nS b0 A 03 A P\n", 1, 0},
    {{0, PMB_KERNEL, 1, 0}, "", WRITTEN,
     "# 2 lines of other buses were passed over\n# no packets\n", 0, 1},
    {{0, PMB_SMBUS, 0, 0}, "i2c-9", WRITTEN,
     "# 2 lines of i2c were passed over\n# no packets\n", 0, 1},
    {{0, PMB_SIGROK, 0, 1}, "", ASKED("1") ENDED("1"), "S b0 A P\n", 1, 0},
    {{0, PMB_SIGROK, 0, 0}, "", ASKED("1") ENDED("1"),
     "# line 1: the packet from line 1 is cut\n# line 2: makes no sense\n# no packets\n", 0, 3},
    {{1000, PMB_SIGROK, 1, 1}, "i2c-2", ASKED("1") "7-7 " ASKED("2") ENDED("2"),
     "# 0.007000000 s\nS b0 A P\n# 2 lines of other buses were passed over\n", 1, 0},
    {{0, PMB_SALEAE, 0, 0}, "", "x\n", "# line 1: makes no sense\n# no packets\n", 0, 2},
    {{0, PMB_BEAGLE, 0, 0}, "", "Index,S/P,Addr,Record,Data\n1,SP,58,Write Transaction,03\n",
     "S b0 A 03 A P\n", 1, 0},
};

static int imports_of(const struct recorded *it)
{
    const size_t length = strlen(it->right), most = length + 3;
    size_t room;
    for (room = 0; room <= most; room++) {
        char bytes[MOST];
        const size_t kept = room < length ? room : length;
        pmb_result told;
        memset(bytes, '~', sizeof bytes);
        memset(&told, 0x5a, sizeof told);
        EXPECT(pmb_import(&it->recorder, it->bus, strlen(it->bus), it->text, strlen(it->text),
                          bytes + 1, room, &told) == length);
        EXPECT(tells(&told, room < length ? PMB_NO_ROOM : PMB_OK, 0, -1, -1, length, it->packets,
                     it->refusals));
        EXPECT(bytes[0] == '~' && memcmp(bytes + 1, it->right, kept) == 0);
        EXPECT(all_are(bytes + 1 + kept, sizeof bytes - 1 - kept, '~'));
    }
    return 0;
}

/* What the program refuses, and fields out of range. */
static const struct {
    pmb_recorder recorder;
    int32_t status;
} bad_recorders[] = {
    {{0, 5, 0, 0}, PMB_BAD_SOURCE},
    {{0, 255, 0, 0}, PMB_BAD_SOURCE},
    {{UINT64_MAX, 5, 2, 2}, PMB_BAD_SOURCE},
    {{0, PMB_KERNEL, 2, 0}, PMB_BAD_CHOICE},
    {{0, PMB_SIGROK, 0, 2}, PMB_BAD_CHOICE},
    {{UINT64_MAX, PMB_BEAGLE, 1, 2}, PMB_BAD_CHOICE},
    {{UINT64_MAX, PMB_BEAGLE, 255, 1}, PMB_BAD_CHOICE},
    {{UINT64_C(18446744074), PMB_SIGROK, 0, 0}, PMB_BAD_RATE},
    {{UINT64_MAX, PMB_SIGROK, 0, 0}, PMB_BAD_RATE},
    {{UINT64_MAX, PMB_BEAGLE, 1, 1}, PMB_BAD_RATE},
    {{1, PMB_SALEAE, 0, 0}, PMB_SIGROK_ONLY},
    {{1, PMB_BEAGLE, 0, 0}, PMB_SIGROK_ONLY},
    {{1, PMB_BEAGLE, 1, 0}, PMB_SIGROK_ONLY},
    {{1, PMB_KERNEL, 0, 0}, PMB_SIGROK_ONLY},
    {{1, PMB_SMBUS, 0, 0}, PMB_SIGROK_ONLY},
    {{0, PMB_SALEAE, 0, 1}, PMB_SIGROK_ONLY},
    {{0, PMB_KERNEL, 0, 1}, PMB_SIGROK_ONLY},
    {{0, PMB_BEAGLE, 1, 0}, PMB_NO_BUS},
};

static int imports(void)
{
    size_t i;
    for (i = 0; i < sizeof recordings / sizeof *recordings; i++)
        if (imports_of(&recordings[i])) return fail(recordings[i].right, __LINE__);
    for (i = 0; i < sizeof bad_recorders / sizeof *bad_recorders; i++) {
        char bytes[8] = "~~~~~~~";
        pmb_result told;
        memset(&told, 0x5a, sizeof told);
        EXPECT(pmb_import(&bad_recorders[i].recorder, "", 0, WRITTEN, sizeof WRITTEN - 1, bytes,
                          sizeof bytes, &told) == 0);
        EXPECT(tells(&told, bad_recorders[i].status, 0, -1, -1, 0, 0, 0));
        EXPECT(strcmp(bytes, "~~~~~~~") == 0);
    }
    return 0;
}

/* ---- an input of 2 MB, and a line that is too long */

static int large(void)
{
    static const char line[] = "write 58 21 00 18 pec # VOUT_COMMAND 12\n";
    const size_t times = (2 << 20) / (sizeof PACKET - 1), length = times * (sizeof PACKET - 1);
    const size_t right = times * (sizeof line - 1);
    char *text = (char *)malloc(length), *out = (char *)malloc(right);
    pmb_result told;
    size_t i;
    EXPECT(text != NULL && out != NULL);
    for (i = 0; i < times; i++) memcpy(text + i * (sizeof PACKET - 1), PACKET, sizeof PACKET - 1);
    EXPECT(pmb_show(profile, sizeof profile - 1, text, length, out, right, &told) == right);
    EXPECT(tells(&told, PMB_OK, 0, -1, -1, right, times, 0));
    for (i = 0; i < times; i++)
        EXPECT(memcmp(out + i * (sizeof line - 1), line, sizeof line - 1) == 0);
    EXPECT(pmb_show(profile, sizeof profile - 1, text, length, out, right - 1, &told) == right);
    EXPECT(told.status == PMB_NO_ROOM);
    memset(text, 'w', 32769);
    i = pmb_build(profile, sizeof profile - 1, text, 32769, out, right, &told);
    EXPECT(i == strlen("# line 1: TooLong at 32768\n") && told.refusals == 1);
    EXPECT(memcmp(out, "# line 1: TooLong at 32768\n", i) == 0);
    free(text);
    free(out);
    return 0;
}

/* ---- each allocation refused */

#ifdef REFUSES
static int refusals_of(const input *it)
{
    long most;
    char bytes[MOST];
    pmb_result told;
    allocations = live = refused = 0;
    call_on(it->call, profile, sizeof profile - 1, it->text, strlen(it->text), bytes, sizeof bytes,
            &told);
    most = allocations;
    EXPECT(told.status == PMB_OK && told.length == strlen(it->right) && live == 0 && most > 0);
    for (refused = 1; refused <= most; refused++) {
        memset(bytes, '~', sizeof bytes);
        allocations = 0;
        call_on(it->call, profile, sizeof profile - 1, it->text, strlen(it->text), bytes, sizeof bytes,
                &told);
        EXPECT(live == 0 && tells(&told, PMB_NO_MEMORY, 0, -1, -1, 0, 0, 0));
        EXPECT(all_are(bytes, sizeof bytes, '~'));
    }
    return 0;
}

/* Without memory to read a profile again there are fewer lines, and without any nothing is said. */
static int refusals_of_fault(const struct explained *it)
{
    long most;
    char bytes[MOST];
    pmb_result told;
    allocations = live = refused = 0;
    pmb_profile_fault(it->toml, strlen(it->toml), bytes, sizeof bytes, &told);
    most = allocations;
    EXPECT(told.status == PMB_BAD_PROFILE && live == 0 && most > 0);
    for (refused = 1; refused <= most; refused++) {
        memset(bytes, '~', sizeof bytes);
        allocations = 0;
        pmb_profile_fault(it->toml, strlen(it->toml), bytes, sizeof bytes, &told);
        EXPECT(live == 0 && all_are(bytes + told.length, sizeof bytes - told.length, '~'));
        EXPECT(refused > 1 || told.status == PMB_NO_MEMORY);
        if (told.status == PMB_NO_MEMORY) {
            EXPECT(tells(&told, PMB_NO_MEMORY, 0, -1, -1, 0, 0, 0));
        } else {
            /* (lines that help, and the place, or neither) */
            const int has_place = told.length > strlen(it->first);
            EXPECT(tells_but_place(&told, PMB_BAD_PROFILE, it->fault, it->device, it->command,
                                   told.length, 0, 0));
            EXPECT(memcmp(bytes, it->first, strlen(it->first)) == 0);
            EXPECT(told.line == (has_place ? it->line : 0));
            EXPECT(told.column == (has_place ? it->column : 0));
        }
    }
    return 0;
}

static int refusals_of_import(const struct recorded *it)
{
    long most;
    char bytes[MOST];
    pmb_result told;
    allocations = live = refused = 0;
    pmb_import(&it->recorder, it->bus, strlen(it->bus), it->text, strlen(it->text), bytes,
               sizeof bytes, &told);
    most = allocations;
    EXPECT(told.status == PMB_OK && told.length == strlen(it->right) && live == 0 && most > 0);
    for (refused = 1; refused <= most; refused++) {
        memset(bytes, '~', sizeof bytes);
        allocations = 0;
        EXPECT(pmb_import(&it->recorder, it->bus, strlen(it->bus), it->text, strlen(it->text), bytes,
                          sizeof bytes, &told) == 0);
        EXPECT(live == 0 && tells(&told, PMB_NO_MEMORY, 0, -1, -1, 0, 0, 0));
        EXPECT(all_are(bytes, sizeof bytes, '~'));
    }
    return 0;
}

static int refusals(void)
{
    size_t i;
    int failed = 0;
    counting = 1;
    for (later = 0; later <= 1 && !failed; later++)
        for (i = 0; i < sizeof recordings / sizeof *recordings && !failed; i++)
            if (refusals_of_import(&recordings[i])) failed = fail(recordings[i].right, __LINE__);
    for (later = 0; later <= 1 && !failed; later++)
        for (i = 0; i < sizeof explained_profiles / sizeof *explained_profiles && !failed; i++)
            failed = refusals_of_fault(&explained_profiles[i]);
    for (later = 0; later <= 1 && !failed; later++)
        for (i = 0; i < sizeof inputs / sizeof *inputs && !failed; i++)
            if (refusals_of(&inputs[i])) failed = fail(inputs[i].right, __LINE__);
    counting = 0;
    return failed;
}
#endif

/* A pointer whose length is 0 may be null: an empty text, or no room. */
static int nulls(void)
{
    pmb_recorder recorder;
    pmb_result told;
    int call;
    memset(&recorder, 0, sizeof recorder);
    for (call = SHOW; call <= JSON; call++) {
        EXPECT(call_on((enum call)call, NULL, 0, PACKET, sizeof PACKET - 1, NULL, 0, &told) == 0);
        EXPECT(told.status == PMB_BAD_PROFILE && told.fault == PMB_MISSING_KEY);
        EXPECT(call_on((enum call)call, profile, sizeof profile - 1, NULL, 0, NULL, 0, &told) ==
               told.length);
        EXPECT(told.status == (told.length == 0 ? PMB_OK : PMB_NO_ROOM) && told.packets == 0);
    }
    EXPECT(pmb_json(profile, sizeof profile - 1, NULL, 0, &usual, NULL, 0, NULL, 0, &told) > 0);
    EXPECT(told.status == PMB_NO_ROOM);
    EXPECT(pmb_import(&recorder, NULL, 0, NULL, 0, NULL, 0, &told) == told.length);
    EXPECT(told.status == PMB_NO_ROOM && told.refusals == 1);
    EXPECT(pmb_profile_fault(NULL, 0, NULL, 0, &told) > 0 && told.fault == PMB_MISSING_KEY);
    return 0;
}

static void *all(void *result)
{
    *(int *)result = rooms() || faults() || explanations() || nested() || choices() ||
                     addresses() || json_as_chosen() || json_of_others() || imports() || large() || nulls();
    return result;
}

/* Calls a function from so many threads at once, each with so much stack. */
static int in_threads(void *(*call)(void *), size_t stack)
{
    pthread_t threads[THREADS];
    pthread_attr_t small;
    int results[THREADS], i, failed = 0;
    if (pthread_attr_init(&small) || pthread_attr_setstacksize(&small, stack))
        return fail("pthread_attr", __LINE__);
    for (i = 0; i < THREADS; i++)
        if (pthread_create(&threads[i], &small, call, &results[i]))
            return fail("pthread_create", __LINE__);
    for (i = 0; i < THREADS; i++) {
        pthread_join(threads[i], NULL);
        failed |= results[i];
    }
    pthread_attr_destroy(&small);
    return failed;
}

int main(void)
{
    int failed;
    all(&failed);
#ifdef REFUSES
    failed |= refusals();
#else
    (void)counting, (void)later, (void)allocations, (void)live, (void)refused;
#endif
    failed |= in_threads(all, STACK);
    return failed;
}
