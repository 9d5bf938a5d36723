/* pmb.h: the proved PMBus codec for C99 and C++.
 *
 * Link with -lpmb; in a clone, where nothing is installed, with release/libpmb.a or
 * release/libpmb.so. docs/library.md begins with a first program.
 *
 * For every function here:
 *  - It keeps nothing between calls, but for what a handle holds, and starts nothing. It may be
 *    called from several threads side by side. Two calls at one time may not write to the same place.
 *  - A pointer whose length is 0 may be null: it is an empty text, or no room. No other pointer may
 *    be. Behind a pointer with a length there are that many bytes, up to 2^63 - 1.
 *  - What a call only reads, as a profile and a capture, may overlap, or be the same. What it writes to
 *    overlaps neither what it reads nor what else it writes to: what is behind each pointer that is
 *    not to const, each handle among it, and all of a room, also where no text comes.
 *  - Every value is allowed. A status says what is out of range.
 *
 * There are two parts. Up to the line "whole inputs" below, for each function:
 *  - It takes no memory from the heap, and uses less than 2 KB of stack. Of the C library it calls
 *    memcpy and memmove alone, and on microcontrollers memset. It may be called from a signal
 *    handler. (libpmb.a is one object, so
 *    that linking it asks for what the second part needs too, unless the linker leaves out what
 *    isn't called: with --gc-sections memcpy, memmove and the compiler's own library suffice.)
 *  - A call whose status is not PMB_OK leaves what it would have written as it was. Only `length`,
 *    `used` and a lexer are written always.
 */
#ifndef PMB_H
#define PMB_H

#include <stddef.h>
#include <stdint.h>

#ifdef __cplusplus
extern "C" {
#endif

/* The version of this header: the major number in bits 31:16, the minor one in bits 15:8, the patch
 * in bits 7:0. */
#define PMB_VERSION 0x000200u

/* The version of the library that is linked. */
uint32_t pmb_version(void);

/* The status of a call. */
enum pmb_status {
    PMB_OK = 0,
    /* The quantity is below every value, or above every value, of the format. */
    PMB_BELOW = 1,
    PMB_ABOVE = 2,
    /* The format: its kind is none of enum pmb_kind, or its table none of enum pmb_vid_table. */
    PMB_BAD_FORMAT = 3,
    /* Its exponent of two is not from -16 to 15. */
    PMB_BAD_EXPONENT = 4,
    /* The slope m of DIRECT is 0. */
    PMB_ZERO_SLOPE = 5,
    /* The exponent of ten r of DIRECT is not from -9 to 9. */
    PMB_BAD_SCALE = 6,
    /* VOUT_MODE: values are relative to VOUT_COMMAND. */
    PMB_RELATIVE = 7,
    /* VOUT_MODE: values are VID codes. */
    PMB_VID = 8,
    /* VOUT_MODE: values are IEEE half precision numbers. */
    PMB_IEEE = 9,
    /* VOUT_MODE: values are in DIRECT, and there are no coefficients (m is 0). */
    PMB_NO_COEFFICIENTS = 10,
    /* The text of a quantity has no byte. */
    PMB_EMPTY = 11,
    /* The text is not a quantity's. */
    PMB_BAD_DIGIT = 12,
    /* The denominator is 0. */
    PMB_ZERO_DENOMINATOR = 13,
    /* A number of the quantity in lowest terms is 2^62 or more, without its sign; or a text has
     * more than 24 digits after the point, zeros at the end not counted, or a number of 2^63 or more
     * before or after the slash. */
    PMB_TOO_LARGE = 14,
    /* The standard has no name there. */
    PMB_NO_NAME = 15,
    /* The text, and the NUL after it where it has one, don't fit into the room; or more items are ready
     * than the one that was moved. */
    PMB_NO_ROOM = 16,
    /* The profile has a fault. The result says which, and where. */
    PMB_BAD_PROFILE = 17,
    /* malloc or realloc had no memory. */
    PMB_NO_MEMORY = 18,
    /* A field has a number that means nothing: `start` or `bad_words` of pmb_choice, `names_bus` or
     * `unshifted` of pmb_recorder. */
    PMB_BAD_CHOICE = 19,
    /* No event has ended in the text so far. */
    PMB_NO_EVENT = 20,
    /* A word of the text is no token. */
    PMB_BAD_TOKEN = 21,
    /* The code has no value: in half precision it is an infinity, or not a number. */
    PMB_NOT_A_NUMBER = 22,
    /* The code has no value: the VID table has no voltage for it. */
    PMB_NO_CODE = 23,
    /* The code has no value: in the VID table it stands for an output that is off. */
    PMB_OFF = 24,
    /* The handle is not open. */
    PMB_CLOSED = 25,
    /* The text has ended, or reading has: the handle takes no more of it. */
    PMB_ENDED = 26,
    /* A transfer is under way on the bus: its last message was not sent. */
    PMB_BUSY = 27,
    /* `digits` of pmb_choice is over 12: `pmb json` refuses that as BadDigits. */
    PMB_BAD_DIGITS = 28,
    /* The address of a wanted device is over 7fh: `pmb json` refuses that as BadAddress. */
    PMB_BAD_DEVICE = 29,
    /* The source of pmb_recorder is none of enum pmb_source: `pmb import` refuses it as BadSource. */
    PMB_BAD_SOURCE = 30,
    /* The rate of pmb_recorder is over 18,446,744,073: `pmb import` refuses that as BadRate. */
    PMB_BAD_RATE = 31,
    /* A rate, or `unshifted`, for another source than PMB_SIGROK: `pmb import` refuses that as
     * SigrokOnly. */
    PMB_SIGROK_ONLY = 32,
    /* A bus for PMB_BEAGLE: `pmb import` refuses that as NoBus. */
    PMB_NO_BUS = 33
};

/* A quantity: an exact fraction, without a unit. What is given may be any fraction, of any signs.
 * What is returned is in lowest terms, with a denominator of 1 or more. */
typedef struct pmb_quantity {
    int64_t numerator;
    int64_t denominator;
} pmb_quantity;

/* The kinds of number formats (PMBus Part II revision 1.3, sections 7 and 8). */
enum pmb_kind {
    PMB_LINEAR11 = 0,
    /* LINEAR11, written with one exponent. */
    PMB_LINEAR11_FIXED = 1,
    PMB_ULINEAR16 = 2,
    PMB_SLINEAR16 = 3,
    PMB_DIRECT = 4,
    /* The format that a VOUT_MODE names, for a command whose linear words are unsigned (as
     * VOUT_COMMAND) or signed (as VOUT_TRIM). */
    PMB_VOUT = 5,
    PMB_VOUT_SIGNED = 6,
    /* IEEE 754 half precision (binary16). */
    PMB_HALF = 7,
    /* The codes of a VID table. (PMB_VID is a status.) */
    PMB_VID_TABLE = 8,
    /* DIRECT with words Y that have no sign, 0 to 65535. */
    PMB_UDIRECT = 9
};

/* The VID tables (docs/numbers.md has their codes and voltages). 0 is none of them. */
enum pmb_vid_table {
    PMB_VID_VR11 = 1,
    PMB_VID_VR12 = 2,
    PMB_VID_VR13 = 3,
    PMB_VID_IMVP9 = 4,
    PMB_VID_AMD625MV = 5,
    PMB_VID_NVIDIA195MV = 6
};

/* A number format: its kind, and the fields that the kind asks for. Other fields are ignored. */
typedef struct pmb_format {
    uint8_t kind;    /* one of enum pmb_kind */
    int8_t exponent; /* of two, -16 to 15: PMB_LINEAR11_FIXED, PMB_ULINEAR16, PMB_SLINEAR16 */
    uint8_t mode;    /* VOUT_MODE: PMB_VOUT, PMB_VOUT_SIGNED; the table, one of enum pmb_vid_table:
                      * PMB_VID_TABLE */
    int8_t r;        /* DIRECT's exponent of ten, -9 to 9: PMB_DIRECT, PMB_UDIRECT, and where VOUT_MODE
                      * says DIRECT, whose words then have a sign */
    int16_t m;       /* DIRECT's slope; not 0, but for PMB_VOUT and PMB_VOUT_SIGNED 0 where none */
    int16_t b;       /* DIRECT's offset */
} pmb_format;

/* The packet error code (SMBus 3.0 section 6.4) of bytes and one more byte, where crc is the code
 * of those bytes, or 0 if there are none. */
uint8_t pmb_pec_next(uint8_t crc, uint8_t byte);

/* The packet error code of bytes before and these bytes, where crc is the code of those before, or
 * 0 if there are none. In a packet it covers every byte before it, address bytes included. */
uint8_t pmb_pec(uint8_t crc, const uint8_t *bytes, size_t length);

/* Writes the code of two bytes whose value is nearest to a quantity: the even one where two are
 * equally near. A quantity outside the range is a fault, however little it is outside. A code
 * without a value, such as that of a VID table for off, is never written.
 * Returns what is wrong with the format (PMB_BAD_FORMAT to PMB_NO_COEFFICIENTS), or else with the
 * quantity (PMB_ZERO_DENOMINATOR, PMB_TOO_LARGE), or else PMB_BELOW or PMB_ABOVE. */
int32_t pmb_encode(const pmb_format *format, pmb_quantity quantity, uint16_t *code);

/* Writes the exact value of a code of two bytes.
 * Returns what is wrong with the format (PMB_BAD_FORMAT to PMB_NO_COEFFICIENTS), or else why the code
 * has no value: PMB_NOT_A_NUMBER for PMB_HALF, PMB_NO_CODE or PMB_OFF for PMB_VID_TABLE. */
int32_t pmb_decode(const pmb_format *format, uint16_t code, pmb_quantity *quantity);

/* Writes the quantity that a text of so many bytes spells, without a NUL: an optional '-', digits,
 * and then nothing, a '.' and digits, or a '/' and digits; as "12", "-1.5", "2/3".
 * Returns PMB_EMPTY, PMB_BAD_DIGIT, PMB_ZERO_DENOMINATOR or PMB_TOO_LARGE, the first that holds. */
int32_t pmb_quantity_parse(const char *text, size_t length, pmb_quantity *quantity);

/* The most characters of a text that is written, without its NUL. */
#define PMB_MOST_QUANTITY_TEXT 45
#define PMB_MOST_COMMAND_NAME 32
#define PMB_MOST_BIT_NAME 17
#define PMB_MOST_STATUS_NAME 20
#define PMB_MOST_REASON_NAME 14

/* Writes the text of a quantity, and a NUL: its shortest exact decimal where one has at most 24
 * digits after the point, and otherwise numerator, '/' and denominator in lowest terms. length is
 * set to how many characters it has, also where they don't fit; 0 where there is no text.
 * Returns PMB_ZERO_DENOMINATOR or PMB_TOO_LARGE, or else PMB_NO_ROOM. */
int32_t pmb_quantity_text(pmb_quantity quantity, char *text, size_t room, size_t *length);

/* Writes the name of a standard command (PMBus Part II Appendix I), and a NUL, as "READ_VIN" of 88h.
 * length is set to how many characters it has, also where they don't fit; 0 where there is no name.
 * Returns PMB_NO_NAME, or else PMB_NO_ROOM. */
int32_t pmb_command_name(uint8_t code, char *text, size_t room, size_t *length);

/* Writes the name of a bit of a status command (PMBus Part II section 17), and a NUL, as "VOUT" of
 * bit 15 of 79h, STATUS_WORD. Bits are counted from 0 at the lowest. length is set to how many
 * characters it has, also where they don't fit; 0 where there is no name.
 * Returns PMB_NO_NAME, or else PMB_NO_ROOM. */
int32_t pmb_bit_name(uint8_t code, uint8_t bit, char *text, size_t room, size_t *length);

/* Writes the name of a status as this header has it, and a NUL, as "PMB_BAD_FORMAT" of 3. length is
 * set to how many characters it has, also where they don't fit; 0 where there is no such status.
 * Returns PMB_NO_NAME, or else PMB_NO_ROOM. */
int32_t pmb_status_name(int32_t status, char *text, size_t room, size_t *length);

/* Why an event is refused: the first of these that holds (docs/errors.md has each with an example). */
enum pmb_reason {
    /* The first byte of a packet is an address for reading. */
    PMB_REASON_READ_FIRST = 1,
    /* The first byte after a repeated START is an address that may not come there. */
    PMB_REASON_BAD_RESTART = 2,
    /* A packet error code of a reply is wrong; or ACK of a written byte that can only be a wrong one. */
    PMB_REASON_BAD_PEC = 3,
    /* ACK of an address that no device has. */
    PMB_REASON_UNKNOWN_DEVICE = 4,
    /* ACK of a command code that the device does not take there. */
    PMB_REASON_UNKNOWN_COMMAND = 5,
    /* ACK of a byte of a reply that has to end there. */
    PMB_REASON_TOO_LONG = 6,
    /* NACK of a byte of a reply that has to continue. */
    PMB_REASON_TOO_SHORT = 7,
    /* Any other event that may not come there. */
    PMB_REASON_WRONG_EVENT = 8,
    /* The capture ends inside a packet. */
    PMB_REASON_TRUNCATED = 9
};

/* Writes the name of a reason, one of enum pmb_reason, as objects of pmb_json have it, and a NUL: as
 * "BadPec" of 3. length is set to how many characters it has, also where they don't fit; 0 where there
 * is no such reason. (The libraries for microcontrollers lack it.)
 * Returns PMB_NO_NAME, or else PMB_NO_ROOM. */
int32_t pmb_reason_name(int32_t reason, char *text, size_t room, size_t *length);

/* The kinds of events of a bus. */
enum pmb_event_kind { PMB_START = 0, PMB_BYTE = 1, PMB_ACK = 2, PMB_NACK = 3, PMB_STOP = 4 };

/* An event. */
typedef struct pmb_event {
    uint8_t kind; /* one of enum pmb_event_kind */
    uint8_t byte; /* of PMB_BYTE, and else 0 */
} pmb_event;

/* A lexer of a capture's text (docs/text.md): where the text so far has ended. It has 24 bytes and
 * no pointers, and may be copied. With all numbers 0, as of `pmb_lexer lexer = { 0 }`, it is one at
 * the start of a text. Any other numbers make it one at some text too, or else it is refused: each
 * call returns PMB_BAD_TOKEN, uses nothing and leaves it as it is. */
typedef struct pmb_lexer {
    uint64_t used;  /* how many bytes of the text were used; stays at 2^64 - 1 */
    uint64_t at;    /* the offset of the first byte of the word under way, or that is no token */
    uint8_t place;  /* 0 between words, 1 in a comment, 2 and 3 after one and two bytes of a word,
                     * 4 or more where a word is no token */
    uint8_t first;  /* the first byte of the word under way */
    uint8_t second; /* its second byte */
} pmb_lexer;

/* Reads the next piece of a text, up to and including the byte that ends its next event, or all of
 * it. used is set to how many bytes were read; those after them are to be given again, before what
 * follows.
 * A text may be cut anywhere: its events are the same.
 * Returns PMB_OK, and writes the event; or PMB_NO_EVENT, where all is used; or PMB_BAD_TOKEN, where
 * a word is no token: lexer->at is the offset in the text of its first byte, and each further call
 * of this lexer returns the same and uses nothing. */
int32_t pmb_lex(pmb_lexer *lexer, const char *piece, size_t length, size_t *used, pmb_event *event);

/* The text ends, and with it the word under way.
 * Returns PMB_OK, and writes that word's event; or PMB_NO_EVENT, where there was none; or
 * PMB_BAD_TOKEN, as pmb_lex does. */
int32_t pmb_lex_end(pmb_lexer *lexer, pmb_event *event);

/* ---- whole inputs
 *
 * Each of these writes what the subcommand of `pmb` of that name writes, of an input that is in memory
 * as a whole; but for pmb_import under a profile: a TOML document, docs/profiles.md. Captures and lines
 * are those of docs/text.md, requests those of docs/requests.md, and recordings those of docs/import.md.
 * For each function:
 *  - It returns how many bytes the text has, also where they don't fit. What fits stands at the start
 *    of the room, without a NUL, and the rest of the room stays. With a room of 0 bytes only the
 *    length is found.
 *  - The status in `told` is PMB_OK; or PMB_NO_ROOM where the text doesn't fit; or PMB_BAD_PROFILE or
 *    PMB_NO_MEMORY, and then the room stays and the length is 0. pmb_json and pmb_import have more, with
 *    which it is so too.
 *  - It takes memory by malloc and realloc: for the profile, pmb_run for its devices too, and up to
 *    400 KB for what it reads and writes (docs/library.md). It frees all of it before it returns. It
 *    uses less than 96 KB of stack. It may not be called from a signal handler.
 *  - Of the C library it calls malloc, realloc, free, memcpy, memmove and memset.
 */

/* What is wrong with a profile (docs/mistakes.md has the rules in their order). */
enum pmb_fault {
    PMB_NOT_TOML = 1,
    PMB_UNKNOWN_KEY = 2,
    PMB_MISSING_KEY = 3,
    PMB_WRONG_TYPE = 4,
    PMB_TOO_MANY_DEVICES = 5,
    PMB_BAD_ADDRESS = 6,
    PMB_ADDRESS_TWICE = 7,
    PMB_BAD_VALUE = 8,
    PMB_BAD_PAGES = 9,
    PMB_UNKNOWN_NAME = 10,
    PMB_BAD_NAME = 11,
    PMB_BAD_FORM = 12,
    PMB_BAD_COEFFICIENTS = 13,
    PMB_CODE_TWICE = 14,
    PMB_BAD_INITIAL = 15
};

/* The result of a call over a whole input. */
typedef struct pmb_result {
    int32_t status;
    /* One of enum pmb_fault where the status is PMB_BAD_PROFILE, and else 0. */
    int32_t fault;
    /* In which device of the profile, and in which command of that device, the fault is, both counted
     * from 0; -1 where it is in none. */
    int32_t device;
    int32_t command;
    /* How many bytes the text has; what the call returns, but for pmb_reader_take, pmb_reader_next and
     * pmb_bus_events. */
    size_t length;
    /* How many packets a capture has and how many refusals, a word that is no token among them; how
     * many lines were built or requests done, and how many had a fault or failed; how many packets
     * came of a recording, and how many lines of the capture tell that something is missing. */
    uint64_t packets;
    uint64_t refusals;
    /* pmb_profile_fault: where in the profile's text the fault is, both counted from 1, the column in
     * bytes. A line ends with LF. 0 and 0 where no place is known, and after each other call. */
    uint32_t line;
    uint32_t column;
} pmb_result;

/* Writes a line for each packet of a capture, with what it says, and for each refusal. */
size_t pmb_show(const char *profile, size_t profile_length, const char *capture,
                size_t capture_length, char *out, size_t room, pmb_result *told);

/* Writes a line for each refusal of a capture, and one with the numbers of packets and refusals. */
size_t pmb_check(const char *profile, size_t profile_length, const char *capture,
                 size_t capture_length, char *out, size_t room, pmb_result *told);

/* Writes the events of the packet of each transaction line, or the line's fault. */
size_t pmb_build(const char *profile, size_t profile_length, const char *lines,
                 size_t lines_length, char *out, size_t room, pmb_result *told);

/* Runs requests against the simulated devices of the profile, as they are first made, and writes what
 * is recorded of each on the bus, and its result. */
size_t pmb_run(const char *profile, size_t profile_length, const char *requests,
               size_t requests_length, char *out, size_t room, pmb_result *told);

/* What is known of PAGE and VOUT_MODE of the devices where a capture begins: all, since it begins with
 * their power-up; VOUT_MODE alone, which is the profile's on each page; or nothing. */
enum pmb_start { PMB_ALL_KNOWN = 0, PMB_LATE_FIXED_MODE = 1, PMB_LATE = 2 };

/* What is done after a word that is no token: reading ends, or continues with the next line. */
enum pmb_bad_words { PMB_END = 0, PMB_GO_ON = 1 };

/* How the objects of a capture are wanted. */
typedef struct pmb_choice {
    uint8_t digits;    /* the most digits after the point of a number, 0 to 12; the program has 6 */
    uint8_t start;     /* one of enum pmb_start */
    uint8_t bad_words; /* one of enum pmb_bad_words */
} pmb_choice;

/* Writes the objects of a capture (docs/json.md), each as a line of JSON. Of packets and refusals
 * those of devices at the given addresses are wanted, and all where no address is given. An address
 * has seven bits: 58h, and not b0h. Packets to an address that the profile ignores have objects, and
 * count neither as packets nor as refusals.
 * If one of these applies, no input is read, and the status is the first of PMB_BAD_CHOICE,
 * PMB_BAD_DIGITS and PMB_BAD_DEVICE that does. */
size_t pmb_json(const char *profile, size_t profile_length, const char *capture,
                size_t capture_length, const pmb_choice *choice, const uint8_t *devices,
                size_t devices_length, char *out, size_t room, pmb_result *told);

/* What wrote a recording (docs/capturing.md). */
enum pmb_source {
    PMB_SIGROK = 0,
    PMB_SALEAE = 1,
    PMB_BEAGLE = 2,
    /* The events of i2c, and those of smbus, in a trace of the Linux kernel. */
    PMB_KERNEL = 3,
    PMB_SMBUS = 4
};

/* What wrote a recording, and how it is read. */
typedef struct pmb_recorder {
    /* sigrok: how many samples a second has, 1 to 18,446,744,073; 0 where packets get no times, and
     * for each other source. */
    uint64_t rate;
    uint8_t source; /* one of enum pmb_source */
    /* 1 where the given bus is read; 0 where it is that of the first line that names one, and for
     * PMB_BEAGLE. */
    uint8_t names_bus;
    uint8_t unshifted; /* sigrok: 1 where an address is a whole byte. 0 for each other source */
} pmb_recorder;

/* Writes the capture of a recording: whole packets with their times, and lines that tell what is
 * missing. Of the bus only its bytes count, as the recording writes its name; where names_bus is 0
 * they are not read, and the length may be 0. Something is missing where told->refusals is not 0: then
 * `pmb import` has the status 1.
 * If one of these applies, no input is read, and the status is the first of PMB_BAD_SOURCE,
 * PMB_BAD_CHOICE, PMB_BAD_RATE, PMB_SIGROK_ONLY and PMB_NO_BUS that does. */
size_t pmb_import(const pmb_recorder *recorder, const char *bus, size_t bus_length,
                  const char *recording, size_t recording_length, char *out, size_t room,
                  pmb_result *told);

/* The most bytes that pmb_profile_fault writes. */
#define PMB_MOST_FAULT_TEXT 2048

/* Writes what `pmb profile` reports of a profile that has a fault: a line with the fault and its
 * place, and lines that help, each with its LF. They are for people, and may change with each
 * version. The status is PMB_BAD_PROFILE, with the fault, its place, and its line and column, also
 * where the text doesn't fit; or PMB_OK for a profile without a fault, of which nothing is written; or
 * PMB_NO_MEMORY. */
size_t pmb_profile_fault(const char *profile, size_t profile_length, char *out, size_t room,
                         pmb_result *told);

/* ---- handles
 *
 * A handle stands in memory of the caller's and holds memory of the library's. Begin with a closed one,
 * `pmb_profile profile = { 0 };`: what is open is closed by the call named so, and closing one that is
 * closed does nothing. A handle may be moved, but not copied: only one of two copies may be used. Each
 * is used by one call at a time. It may go to another thread between two calls. For several threads
 * at one time, give each a profile of its own by pmb_profile_share, which takes no time.
 * A call with a closed handle returns PMB_CLOSED, or tells it as its status, and does nothing else;
 * one that sends messages returns an error of Linux.
 */

/* A profile that was read once. It holds as much memory as the table in docs/library.md says of a call
 * with that profile, and 24 bytes for each handle. */
typedef struct pmb_profile {
    void *held;
} pmb_profile;

/* Reads a profile. What the handle held before is closed first.
 * Returns PMB_OK, PMB_BAD_PROFILE, where `told` has the fault, or PMB_NO_MEMORY; then the handle is
 * closed. */
int32_t pmb_profile_open(pmb_profile *profile, const char *text, size_t length, pmb_result *told);

/* Opens another handle of the same profile. It needs no memory but that of the handle. What `other` held
 * before is closed first. Returns PMB_OK, PMB_CLOSED or PMB_NO_MEMORY. */
int32_t pmb_profile_share(pmb_profile *profile, pmb_profile *other);

/* Closes the handle. Other handles of the same profile stay open. */
void pmb_profile_close(pmb_profile *profile);

/* Writes what pmb_show writes of a capture, under the profile that the handle holds: what goes in and
 * comes out is the same. The status may also be PMB_CLOSED. */
size_t pmb_profile_show(pmb_profile *profile, const char *capture, size_t capture_length, char *out,
                        size_t room, pmb_result *told);

/* Writes what pmb_check writes of a capture, as pmb_profile_show does what pmb_show does. */
size_t pmb_profile_check(pmb_profile *profile, const char *capture, size_t capture_length, char *out,
                         size_t room, pmb_result *told);

/* Writes what pmb_build writes of transaction lines, in the same way. */
size_t pmb_profile_build(pmb_profile *profile, const char *lines, size_t lines_length, char *out,
                         size_t room, pmb_result *told);

/* Writes what pmb_run writes of requests, in the same way: each call begins with devices as they are
 * first made. */
size_t pmb_profile_run(pmb_profile *profile, const char *requests, size_t requests_length, char *out,
                       size_t room, pmb_result *told);

/* Writes what pmb_json writes of a capture, in the same way. A choice or an address that is out of
 * range is told before a closed handle. */
size_t pmb_profile_json(pmb_profile *profile, const char *capture, size_t capture_length,
                        const pmb_choice *choice, const uint8_t *devices, size_t devices_length,
                        char *out, size_t room, pmb_result *told);

/* A reader of a capture whose text comes in pieces. It is one of objects or one of items, as it was
 * opened. */
typedef struct pmb_reader {
    void *held;
} pmb_reader;

/* Opens a reader of objects under a profile, with the choices of pmb_json. What the reader held before is
 * closed first. The profile may be closed before the reader. A reader takes 94 KB, and 122 KB while it
 * is opened; the list of devices; and room for what is ready and not taken.
 * Returns PMB_OK; or the first of PMB_BAD_CHOICE, PMB_BAD_DIGITS, PMB_BAD_DEVICE, PMB_CLOSED where the
 * profile is, and PMB_NO_MEMORY; then the reader is closed. */
int32_t pmb_reader_open(pmb_reader *reader, pmb_profile *profile, const pmb_choice *choice,
                        const uint8_t *devices, size_t devices_length);

/* Reads the next piece of the text, of any size: the objects of what it completes (docs/json.md) are
 * ready after it, each as a line of JSON, or its items. However the text is cut, they are those of
 * pmb_json.
 * Returns PMB_OK; or PMB_ENDED, where reading has ended: at a word that is no token (if the choice is
 * PMB_END), or since the end was given; or PMB_NO_MEMORY: what was ready before stays, nothing of this
 * piece is ready, and no more is read; or PMB_CLOSED. Whatever it returns, take what is ready. */
int32_t pmb_reader_feed(pmb_reader *reader, const char *piece, size_t length);

/* The text ends here: its last objects or items are ready after it.
 * Returns PMB_ENDED, as all later calls do; or PMB_NO_MEMORY or PMB_CLOSED. */
int32_t pmb_reader_end(pmb_reader *reader);

/* Moves what is ready into the room as far as it fits, the oldest first, and returns how many bytes that
 * are. In `told` the status is PMB_OK, or PMB_NO_ROOM where some stay ready; `length` is how many were
 * ready, and `packets` and `refusals` are the counts of what was read so far, of all devices, as those of
 * pmb_json, a word that is no token among the refusals (after PMB_NO_MEMORY they may count what isn't
 * told). With a room of 0 bytes nothing moves. A reader of items is
 * as a closed one: the status is PMB_CLOSED. */
size_t pmb_reader_take(pmb_reader *reader, char *out, size_t room, pmb_result *told);

/* Closes the reader. What is ready and was not taken is gone. */
void pmb_reader_close(pmb_reader *reader);

/* The kinds of items: each is what `kind` of an object names. */
enum pmb_item_kind {
    /* A write, or a part of a group. */
    PMB_ITEM_WRITE = 1,
    PMB_ITEM_READ = 2,
    /* A process call. */
    PMB_ITEM_CALL = 3,
    /* A packet in which a device refused a byte: its last leg. */
    PMB_ITEM_REFUSED = 4,
    PMB_ITEM_ALERT = 5,
    /* A packet to an address that the profile ignores. */
    PMB_ITEM_OTHER = 6,
    /* An event that no packet allows there, or an end inside a packet. */
    PMB_ITEM_REFUSAL = 7,
    /* A word that is no token. */
    PMB_ITEM_BAD_TOKEN = 8
};

/* What the data of a write or a read are as a number, or why there is none (docs/json.md). */
enum pmb_item_number {
    /* They are no number. */
    PMB_NUMBER_NONE = 0,
    /* The value of a word. */
    PMB_NUMBER_VALUE = 1,
    /* A factor of VOUT_COMMAND. */
    PMB_NUMBER_RATIO = 2,
    /* VOUT_MODE, or the page, isn't known. */
    PMB_NUMBER_UNKNOWN = 3,
    /* There is no such page, also of a list of VID tables, or all pages are selected and differ. */
    PMB_NUMBER_PAGE = 4,
    /* Under VID: a correction; or the profile has no `vid`, or no table for the type. */
    PMB_NUMBER_VID = 5,
    /* Under VID: a limit that is a factor of VOUT_COMMAND. */
    PMB_NUMBER_RELATIVE = 6,
    /* The profile has no coefficients for DIRECT. */
    PMB_NUMBER_COEFFICIENTS = 7,
    /* In half precision an infinity, or not a number. */
    PMB_NUMBER_NAN = 8,
    /* No code of the VID table. */
    PMB_NUMBER_CODE = 9,
    /* The code of the VID table for an output that is off. */
    PMB_NUMBER_OFF = 10
};

/* What a device refused. */
enum pmb_item_refused {
    PMB_REFUSED_ADDRESS = 1,
    PMB_REFUSED_CODE = 2,
    /* A byte after the code. */
    PMB_REFUSED_BYTE = 3,
    PMB_REFUSED_READ_ADDRESS = 4
};

/* A number or a text that doesn't apply. */
#define PMB_ITEM_NONE 0xffffu
/* A page or a phase that applies, and isn't known. */
#define PMB_ITEM_UNKNOWN 0xfffeu
/* A page or a phase: all of them are selected. */
#define PMB_ITEM_ALL 0xffu

/* The bytes of a leg. */
typedef struct pmb_leg {
    uint16_t length;    /* how many there are; PMB_ITEM_NONE where there is no such leg */
    uint8_t bytes[258]; /* these, and 0 after them */
} pmb_leg;

/* A short text, without a NUL. */
typedef struct pmb_short_text {
    uint16_t length; /* how many bytes it has; PMB_ITEM_NONE where there is no such text */
    char bytes[40];  /* these, and 0 after them */
} pmb_short_text;

/* A packet, a part of a group, a refusal, or a word that is no token: what its object says (docs/json.md
 * explains each field, most under the same name), but for names, units, bits, texts and what fields of
 * the data say. It has 680 bytes and no padding. Its numbers have their low byte first, as the processors
 * have them that the library runs on. */
typedef struct pmb_item {
    uint64_t at;         /* the number of its first event, from 0; of a refusal that of the refused event, of
                          * PMB_ITEM_OTHER that of its address byte, of an end and of a bad token how many
                          * events came before */
    uint64_t line;       /* where that event's word begins, or where the text ends, both from 1, the column
                          * in bytes */
    uint64_t column;
    uint64_t part;       /* of a write and of PMB_ITEM_REFUSED: which part, from 1, of how many, 1 but for
                          * a group; else 0 */
    uint64_t parts;
    pmb_quantity value;  /* exact, where `number` is PMB_NUMBER_VALUE or PMB_NUMBER_RATIO; else 0/0 */
    uint16_t code;       /* the command code, or PMB_ITEM_NONE */
    uint16_t page;       /* of a paged command: what was selected before the packet, also PMB_ITEM_ALL or
                          * PMB_ITEM_UNKNOWN; else PMB_ITEM_NONE */
    uint16_t phase;      /* the same of a command that has a value for each phase */
    uint16_t pec;        /* of a write, a read, a call and an alert that a device answered: 1 where there is a
                          * packet error code, and else 0; of PMB_ITEM_REFUSED, where the refused byte is in
                          * the place of one, 1 where it is right, and else 0; else PMB_ITEM_NONE */
    uint16_t right_pec;  /* the code that is right, where one was refused so or is wrong; else PMB_ITEM_NONE */
    uint16_t device;     /* the address, of seven bits, or PMB_ITEM_NONE */
    uint8_t kind;        /* one of enum pmb_item_kind */
    uint8_t refused;     /* of PMB_ITEM_REFUSED one of enum pmb_item_refused; else 0 */
    uint8_t number;      /* one of enum pmb_item_number */
    uint8_t assumed;     /* 1 where the value rests on a VOUT_MODE that the capture has not told; else 0 */
    uint8_t reason;      /* of PMB_ITEM_REFUSAL one of enum pmb_reason; else 0, as the next three are */
    uint8_t expected;    /* the kinds of events that might have come, the sum of 1 << kind for each, with
                          * the numbers of enum pmb_event_kind */
    uint8_t got;         /* that of the event that came, 1 << kind; 0 at an end */
    uint8_t got_byte;    /* its byte, where it is PMB_BYTE; else 0 */
    pmb_leg sent;        /* the data of a write or a call; of PMB_ITEM_REFUSED, and of PMB_ITEM_REFUSAL
                          * in its last written leg, all bytes after the address, of the latter those
                          * before the refused event */
    pmb_leg reply;       /* the data of a read or a call, or the byte of an alert; of PMB_ITEM_REFUSAL in a
                          * leg that is read, all bytes after the address that came before that event */
    pmb_short_text time; /* of its packet, as the capture has it */
    pmb_short_text word; /* of PMB_ITEM_BAD_TOKEN, at most its first 32 bytes */
} pmb_item;

/* Opens a reader of items under a profile. All else is as for pmb_reader_open. (The digits of the choice
 * make no difference to items.) Each item that is ready takes 680 bytes until it is taken.
 * Returns PMB_OK; or the first of PMB_BAD_CHOICE, PMB_BAD_DIGITS, PMB_BAD_DEVICE, PMB_CLOSED where the
 * profile is, and PMB_NO_MEMORY; then the reader is closed. */
int32_t pmb_reader_open_items(pmb_reader *reader, pmb_profile *profile, const pmb_choice *choice,
                              const uint8_t *devices, size_t devices_length);

/* Moves the oldest item that is ready into the struct. (pmb_command_name, pmb_bit_name and pmb_reason_name
 * have names for its numbers.) In `told` the status is PMB_OK, or PMB_NO_ROOM, which is no fault, where more
 * items stay ready; `length` is how many were ready before; and `packets` and `refusals` are as
 * pmb_reader_take has them. A reader of objects is as a closed one: the status is PMB_CLOSED.
 * Returns 1; or 0 where none is ready, and then the struct stays as it is. */
size_t pmb_reader_next(pmb_reader *reader, pmb_item *item, pmb_result *told);

/* A bus of simulated devices: those of a profile, which keep what is written to them from one call to the
 * next (docs/devices.md). What is on the wire is logged until pmb_bus_events takes it. */
typedef struct pmb_bus {
    void *held;
} pmb_bus;

/* The flags of a message: those of <linux/i2c.h>. */
enum pmb_message_flags {
    PMB_WRITE = 0,
    /* I2C_M_RD. */
    PMB_READ = 1,
    /* I2C_M_RD | I2C_M_RECV_LEN: the first byte that the device gives says how many follow it. */
    PMB_READ_BLOCK = 0x0401
};

/* A message, laid out as `struct i2c_msg` of Linux is. */
typedef struct pmb_message {
    uint16_t address; /* of seven bits: 58h, and not b0h */
    uint16_t flags;   /* one of enum pmb_message_flags */
    uint16_t length;  /* how many bytes are written, or how many there is room for */
    uint8_t *bytes;
} pmb_message;

/* Makes the devices of a profile, each as it is at power-up. What the handle held before is closed
 * first. The profile may be closed before the bus. A bus takes 105 KB, and all memory that its devices
 * will ever need (docs/devices.md, "What it costs"); after that only the log grows, by 66 KB at the first
 * messages and requests, and by what isn't taken of it.
 * Returns PMB_OK, PMB_CLOSED where the profile is, or PMB_NO_MEMORY; then the bus is closed. */
int32_t pmb_bus_open(pmb_bus *bus, pmb_profile *profile);

/* Sends a message: START or a repeated START, the address, and the bytes. `flags` is one of enum
 * pmb_message_flags. STOP comes after it where `last` is not 0, and also after an address or a written
 * byte without ACK, and after a bad count of a block. Devices act at STOP.
 * `length` is how many bytes are written or read; 0 makes a quick command. A byte that no device gives
 * is read as ffh. For PMB_READ_BLOCK `length` is how many bytes follow the block, 1 where a packet error
 * code does; there has to be room for 33 more; and `length` is set to how many came in all, the count
 * among them.
 * Returns 0, or one of these errors of Linux, and then `length` and a room for what is read stay:
 *  - -6, ENXIO: no device took the address.
 *  - -121, EREMOTEIO: a device refused a byte.
 *  - -71, EPROTO: the count of a block is 0, or above 32.
 *
 * With one of these nothing was sent:
 *  - -22, EINVAL: the address is above 7fh, there is less room than the length asks for, or the length,
 *    with the 33 bytes of a block, is above 8,192.
 *  - -95, EOPNOTSUPP: other flags.
 *  - -9, EBADF: the handle is not open.
 *  - -12, ENOMEM: there is no memory for the log. */
int32_t pmb_bus_message(pmb_bus *bus, uint16_t address, uint16_t flags, uint8_t *bytes, size_t room,
                        size_t *length, uint8_t last);

/* Does a request, a line as pmb_run takes it, on the devices as they are. What pmb_run would write of it,
 * its events and its result, is logged; a fault of the line has the number of the request since the bus
 * was opened. In `told`, `packets` is 1 where it was done, and `refusals` is 1 where it failed.
 * Returns the status, which is PMB_OK also where the request failed; or PMB_BUSY where a transfer is
 * under way, PMB_CLOSED, or PMB_NO_MEMORY, and then nothing was sent. */
int32_t pmb_bus_request(pmb_bus *bus, const char *line, size_t length, pmb_result *told);

/* Moves what was logged into the room as far as it fits, the oldest first, and returns how many bytes that
 * are: the text of a capture (docs/text.md), for pmb_show or for a reader. In `told` the status is
 * PMB_OK, or PMB_NO_ROOM where some stay; `length` is how many there were. With a room of 0 bytes
 * nothing moves. */
size_t pmb_bus_events(pmb_bus *bus, char *out, size_t room, pmb_result *told);

/* Closes the bus. What was logged and not taken is gone. */
void pmb_bus_close(pmb_bus *bus);

#if defined(__cplusplus) || (defined(__STDC_VERSION__) && __STDC_VERSION__ >= 199901L)
/* Sends some messages as one transfer, as I2C_RDWR of Linux's i2c-dev does: a repeated START is between
 * them, and STOP after the last. For PMB_READ_BLOCK the first of the bytes says before the call how many
 * come beside the block's own, its count among them: 1, or 2 with a packet error code. There has to be
 * room for 32 more. `length` is set to how many came.
 * Returns how many messages were sent, which is all of them; or the error of the first that failed, as
 * pmb_bus_message returns it, and no message after it is sent. With -22 or -95 nothing was sent. After
 * -12 at a later message than the first the transfer is still under way, until a message with STOP. */
static inline int32_t pmb_bus_transfer(pmb_bus *bus, pmb_message *messages, size_t count)
{
    size_t i;
    if (count > 0x7fffffff) return -22;
    for (i = 0; i < count; i++) {
        const pmb_message *const it = &messages[i];
        if (it->flags != PMB_WRITE && it->flags != PMB_READ && it->flags != PMB_READ_BLOCK) return -95;
        if (it->address > 0x7f || it->length > 8192) return -22;
        if (it->flags == PMB_READ_BLOCK &&
            (it->length == 0 || it->bytes[0] == 0 || it->length < it->bytes[0] + 32))
            return -22;
    }
    for (i = 0; i < count; i++) {
        pmb_message *const it = &messages[i];
        const int is_block = it->flags == PMB_READ_BLOCK;
        size_t length = is_block ? (size_t)it->bytes[0] - 1 : it->length;
        const int32_t error = pmb_bus_message(bus, it->address, it->flags, it->bytes, it->length, &length,
                                              (uint8_t)(i + 1 == count));
        if (error != 0) return error;
        if (is_block) it->length = (uint16_t)length;
    }
    return (int32_t)count;
}
#endif

#ifdef __cplusplus
}
#endif

#endif
