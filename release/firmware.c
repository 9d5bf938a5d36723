// The functions of include/pmb.h that allocate nothing, for processors of 32 bits: each calls the
// proved function of its name, whose lengths have 64 bits there too (tools/retarget), and which
// takes a quantity by its place. release/firmware compiles this beside those.
#include "pmb.h"

extern uint32_t pmb_wide_version(void);
extern uint8_t pmb_wide_pec_next(uint8_t crc, uint8_t byte);
extern uint8_t pmb_wide_pec(uint8_t crc, const uint8_t *bytes, uint64_t length);
extern int32_t pmb_wide_encode(const pmb_format *format, const pmb_quantity *quantity,
                               uint16_t *code);
extern int32_t pmb_wide_decode(const pmb_format *format, uint16_t code, pmb_quantity *quantity);
extern int32_t pmb_wide_quantity_parse(const char *text, uint64_t length, pmb_quantity *quantity);
extern int32_t pmb_wide_quantity_text(const pmb_quantity *quantity, char *text, uint64_t room,
                                      uint64_t *length);
extern int32_t pmb_wide_command_name(uint8_t code, char *text, uint64_t room, uint64_t *length);
extern int32_t pmb_wide_bit_name(uint8_t code, uint8_t bit, char *text, uint64_t room,
                                 uint64_t *length);
extern int32_t pmb_wide_status_name(int32_t status, char *text, uint64_t room, uint64_t *length);
extern int32_t pmb_wide_lex(pmb_lexer *lexer, const char *piece, uint64_t length, uint64_t *used,
                            pmb_event *event);
extern int32_t pmb_wide_lex_end(pmb_lexer *lexer, pmb_event *event);

// The proved functions read and write these as they are laid out on x86-64.
_Static_assert(sizeof(pmb_format) == 8 && offsetof(pmb_format, r) == 3 &&
                   offsetof(pmb_format, m) == 4 && offsetof(pmb_format, b) == 6,
               "a format has other places");
_Static_assert(sizeof(pmb_quantity) == 16 && offsetof(pmb_quantity, denominator) == 8,
               "a quantity has other places");
_Static_assert(sizeof(pmb_lexer) == 24 && offsetof(pmb_lexer, at) == 8 &&
                   offsetof(pmb_lexer, place) == 16 && offsetof(pmb_lexer, second) == 18,
               "a lexer has other places");
_Static_assert(sizeof(pmb_event) == 2, "an event has other places");

uint32_t pmb_version(void)
{
    return pmb_wide_version();
}

uint8_t pmb_pec_next(uint8_t crc, uint8_t byte)
{
    return pmb_wide_pec_next(crc, byte);
}

uint8_t pmb_pec(uint8_t crc, const uint8_t *bytes, size_t length)
{
    return pmb_wide_pec(crc, bytes, length);
}

int32_t pmb_encode(const pmb_format *format, pmb_quantity quantity, uint16_t *code)
{
    return pmb_wide_encode(format, &quantity, code);
}

int32_t pmb_decode(const pmb_format *format, uint16_t code, pmb_quantity *quantity)
{
    return pmb_wide_decode(format, code, quantity);
}

int32_t pmb_quantity_parse(const char *text, size_t length, pmb_quantity *quantity)
{
    return pmb_wide_quantity_parse(text, length, quantity);
}

// Each of these writes a length always.

int32_t pmb_quantity_text(pmb_quantity quantity, char *text, size_t room, size_t *length)
{
    uint64_t wide;
    const int32_t status = pmb_wide_quantity_text(&quantity, text, room, &wide);
    *length = (size_t)wide;
    return status;
}

int32_t pmb_command_name(uint8_t code, char *text, size_t room, size_t *length)
{
    uint64_t wide;
    const int32_t status = pmb_wide_command_name(code, text, room, &wide);
    *length = (size_t)wide;
    return status;
}

int32_t pmb_bit_name(uint8_t code, uint8_t bit, char *text, size_t room, size_t *length)
{
    uint64_t wide;
    const int32_t status = pmb_wide_bit_name(code, bit, text, room, &wide);
    *length = (size_t)wide;
    return status;
}

int32_t pmb_status_name(int32_t status, char *text, size_t room, size_t *length)
{
    uint64_t wide;
    const int32_t told = pmb_wide_status_name(status, text, room, &wide);
    *length = (size_t)wide;
    return told;
}

int32_t pmb_lex(pmb_lexer *lexer, const char *piece, size_t length, size_t *used, pmb_event *event)
{
    uint64_t wide;
    const int32_t status = pmb_wide_lex(lexer, piece, length, &wide, event);
    *used = (size_t)wide;
    return status;
}

int32_t pmb_lex_end(pmb_lexer *lexer, pmb_event *event)
{
    return pmb_wide_lex_end(lexer, event);
}
