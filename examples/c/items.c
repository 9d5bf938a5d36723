/* Reads a capture as it comes, 64 bytes at a time as a serial line gives them, and prints the values that
 * were read, with their time, device and page, and the status registers that were not 0. Each packet is a
 * struct, so that no text is taken apart.
 *
 *     cc -std=c99 -Iinclude examples/c/items.c release/libpmb.a -o items
 *     ./items <examples/sessions/undervoltage.txt
 *
 * The exit status is 0, or 1 where the capture has refusals, or 2 where there is no memory. */
#include <stdio.h>

#include "pmb.h"

/* The board's devices: those of examples/sessions/undervoltage.toml. */
static const char board[] = "ignore = [0x48, 0x50]\n"
                            "[[device]]\n"
                            "address = 0x40\n"
                            "pec = \"off\"\n"
                            "pages = 2\n"
                            "vout_mode = [0x14, 0x13]\n";

/* STATUS_BYTE to STATUS_FANS_3_4. */
static int is_status(const pmb_item *item)
{
    return item->code >= 0x78 && item->code <= 0x82;
}

/* A line begins with the time, the device, the page and the command. */
static void print_front(const pmb_item *item)
{
    char name[PMB_MOST_COMMAND_NAME + 1];
    size_t length;
    if (item->time.length != PMB_ITEM_NONE) printf("%.*s ", item->time.length, item->time.bytes);
    printf("%02x", item->device);
    if (item->page < PMB_ITEM_ALL) printf("/%u", item->page);
    if (pmb_command_name((uint8_t)item->code, name, sizeof name, &length) == PMB_OK)
        printf(" %s", name);
    else
        printf(" %02x", item->code);
}

static void print_value(const pmb_item *item)
{
    char text[PMB_MOST_QUANTITY_TEXT + 1];
    size_t length;
    if (pmb_quantity_text(item->value, text, sizeof text, &length) != PMB_OK) return;
    print_front(item);
    /* What rests on a VOUT_MODE that nobody has read yet may be wrong by a factor of 2, 4 or 8. */
    printf(" %s%s\n", text, item->assumed ? " assumed" : "");
}

/* A status register has one byte or two, the low one first. */
static void print_status(const pmb_item *item)
{
    unsigned word = 0;
    int bit;
    if (item->reply.length > 2) return;
    for (bit = 0; bit < item->reply.length; bit++) word |= (unsigned)item->reply.bytes[bit] << 8 * bit;
    if (word == 0) return;
    print_front(item);
    printf(" %0*x", 2 * item->reply.length, word);
    for (bit = 15; bit >= 0; bit--) {
        char name[PMB_MOST_BIT_NAME + 1];
        size_t length;
        if ((word >> bit & 1) == 0) continue;
        if (pmb_bit_name((uint8_t)item->code, (uint8_t)bit, name, sizeof name, &length) == PMB_OK)
            printf(" %s", name);
    }
    printf("\n");
}

static void print_refusal(const pmb_item *item)
{
    char name[PMB_MOST_REASON_NAME + 1];
    size_t length;
    if (pmb_reason_name(item->reason, name, sizeof name, &length) == PMB_OK)
        printf("line %lu: %s\n", (unsigned long)item->line, name);
}

/* Prints what is ready. */
static void print_ready(pmb_reader *reader, pmb_result *told)
{
    pmb_item item;
    while (pmb_reader_next(reader, &item, told)) {
        if (item.kind == PMB_ITEM_REFUSAL) print_refusal(&item);
        if (item.kind != PMB_ITEM_READ) continue;
        if (item.number == PMB_NUMBER_VALUE)
            print_value(&item);
        else if (is_status(&item))
            print_status(&item);
    }
}

int main(void)
{
    const pmb_choice choice = {6, PMB_ALL_KNOWN, PMB_GO_ON};
    pmb_profile profile = {0};
    pmb_reader reader = {0};
    pmb_result told;
    int32_t status;
    char piece[64];
    size_t length;
    status = pmb_profile_open(&profile, board, sizeof board - 1, &told);
    if (status == PMB_OK) status = pmb_reader_open_items(&reader, &profile, &choice, NULL, 0);
    while (status == PMB_OK && (length = fread(piece, 1, sizeof piece, stdin)) > 0) {
        status = pmb_reader_feed(&reader, piece, length);
        print_ready(&reader, &told);
    }
    if (status == PMB_OK) status = pmb_reader_end(&reader);
    print_ready(&reader, &told);
    pmb_reader_close(&reader);
    pmb_profile_close(&profile);
    if (ferror(stdin) || status != PMB_ENDED) {
        fprintf(stderr, ferror(stdin) ? "the capture can't be read\n" : "no memory\n");
        return 2;
    }
    return told.refusals != 0;
}
