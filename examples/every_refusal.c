/* Has the functions refuse for every reason that they have, and prints the name, the number and the value of each. At the
   repository's root: cc -I include examples/every_refusal.c target/staticlib/libexports*.a -o target/refusals && target/refusals */
#include <stdio.h>
#include "bustardcase.h"

static uint8_t out[BUSTARDCASE_OUTLINE_LEN];
static int differ;

static void say(const char *name, unsigned refusal, uint64_t value, uint64_t answer)
{
    printf("%2u  %-17s value %lu\n", BUSTARDCASE_REFUSAL(answer), name, (unsigned long)BUSTARDCASE_VALUE(answer));
    if (BUSTARDCASE_REFUSAL(answer) != refusal || BUSTARDCASE_VALUE(answer) != value) {
        printf("    expected: refusal %u, value %lu\n", refusal, (unsigned long)value);
        differ = 1;
    }
}

/* The bytes of a string without the zero that ends it. */
#define BYTES(text) (const uint8_t *)(text), sizeof(text) - 1
#define SAY(name, answer) say(#name, BUSTARDCASE_REFUSAL_##name, 0, answer)
#define SAY_AT(name, bit, answer) say(#name, BUSTARDCASE_REFUSAL_##name, bit, answer)

static uint64_t box(const uint8_t *buf, size_t len) { return bustardcase_box_header(buf, len, 0, out, sizeof out); }
static uint64_t read_of(const uint8_t *payload, size_t len) { return bustardcase_read(payload, len, out, sizeof out); }

static uint64_t expand(const uint8_t *payload, size_t len, const uint8_t *brands, size_t brands_len)
{
    return bustardcase_expand(payload, len, 0x6D696633, 0, brands, brands_len, out, sizeof out);
}

int main(void)
{
    SAY(BOX_HEADER_CUT, box(BYTES("\0\0\0\x08""fre")));
    SAY(LARGE_SIZE_CUT, box(BYTES("\0\0\0\x01""mdat\0\0\0\0\0\0\0")));
    SAY(BOX_SIZE, box(BYTES("\0\0\0\x07""free")));
    SAY(EXTENDED_TYPE_CUT, box(BYTES("\0\0\0\x0A""uuid\0\0")));
    SAY_AT(HEADER_CUT, 24, read_of(BYTES("\0\0\0")));
    SAY_AT(VERSION, 0, read_of(BYTES("\x40")));
    SAY_AT(FLOAT_DEPTH, 31, read_of(BYTES("\x10\0\0\x01\x80")));
    SAY_AT(TRAILING_BITS, 52, read_of(BYTES("\0\0\0\0\0\0\x01\xAA")));
    SAY_AT(CHUNK_PAST_END, 56, read_of(BYTES("\0\0\0\0\0\0\0")));
    SAY(EMPTY_ALPHA, expand(BYTES("\x04\0\0\0\0\0\0\0\0\xAA"), BYTES("mif3")));
    SAY(UUID_CODEC_TYPE, expand(BYTES("\x20\0\0\0uuidav1C\0\0\0\xAA"), BYTES("mif3")));
    SAY(NO_CODEC_TYPES, expand(BYTES("\0\0\0\0\0\0\0\xAA"), BYTES("mif3")));
    SAY(BRANDS, expand(BYTES("\x20\0\0\0av01av1C\0\0\0\xAA"), BYTES("mif")));
    say("SHORT_OUTPUT", BUSTARDCASE_REFUSAL_SHORT_OUTPUT, BUSTARDCASE_CHECK_LEN,
        bustardcase_check(BYTES("\0\0\0\0\0\0\0\xAA"), out, BUSTARDCASE_CHECK_LEN - 1));
    SAY(NOT_AN_EXPANSION, bustardcase_find_mini(BYTES("\0\0\0\x08""free"), 0x6D696633, 0, BYTES("mif3"), out, sizeof out));
    SAY(NOT_A_FILE_TYPE, bustardcase_file_type(BYTES("mif3\0\0\0"), out, sizeof out));
    return differ;
}
