/* Calls every function of the library, and prints what comes back: the refusal and the value. At the repository's
   root: cc -I include examples/every_function.c target/staticlib/libexports*.a -o target/every && target/every */
#include <stdio.h>
#include "bustardcase.h"

static const uint8_t file[] = "\0\0\0\x14" "ftypmif3\0\0\0\0mif3" "\0\0\0\x18" "mini\x20\0\0\0av01av1C\0\0\0\xAA";
static uint8_t out[BUSTARDCASE_OUTLINE_LEN], expanded[484];

static void say(const char *function, uint64_t answer)
{
    printf("%-11s refusal %2u  value %3u\n", function, BUSTARDCASE_REFUSAL(answer), (unsigned)BUSTARDCASE_VALUE(answer));
}

/* A position or a length in `out`. */
static size_t number(size_t at)
{
    size_t n = 0;
    for (size_t i = at; i < at + 8; i++)
        n = n << 8 | out[i];
    return n;
}

int main(void)
{
    const size_t len = sizeof file - 1;
    const uint32_t mif3 = 0x6D696633, ftyp = 0x66747970, mini = 0x6D696E69;

    say("box_header", bustardcase_box_header(file, len, 20, out, sizeof out));
    say("find_box", bustardcase_find_box(file, len, ftyp, out, sizeof out));
    const uint8_t *body = file + number(BUSTARDCASE_BOX_HEADER_PAYLOAD_START);
    const size_t body_len = number(BUSTARDCASE_BOX_HEADER_PAYLOAD_LENGTH);
    say("file_type", bustardcase_file_type(body, body_len, out, sizeof out));
    const uint8_t *brands = body + number(BUSTARDCASE_FILE_TYPE_COMPATIBLE_BRANDS + BUSTARDCASE_SPAN_POSITION);
    const size_t brands_len = number(BUSTARDCASE_FILE_TYPE_COMPATIBLE_BRANDS + BUSTARDCASE_SPAN_LENGTH);
    say("find_box", bustardcase_find_box(file, len, mini, out, sizeof out));
    const uint8_t *payload = file + number(BUSTARDCASE_BOX_HEADER_PAYLOAD_START);
    const size_t payload_len = number(BUSTARDCASE_BOX_HEADER_PAYLOAD_LENGTH);
    say("read", bustardcase_read(payload, payload_len, out, sizeof out));
    say("check", bustardcase_check(payload, payload_len, out, sizeof out));
    say("outline", bustardcase_outline(payload, payload_len, out, sizeof out));
    say("diagnose", bustardcase_diagnose(payload, payload_len, out, sizeof out));
    say("rewrite", bustardcase_rewrite(payload, payload_len, out, sizeof out));
    say("expand", bustardcase_expand(payload, payload_len, mif3, 0, brands, brands_len, expanded, sizeof expanded));
    say("find_mini", bustardcase_find_mini(expanded, sizeof expanded, mif3, 0, brands, brands_len, out, sizeof out));
    say("restore", bustardcase_restore(expanded, sizeof expanded, mif3, 0, brands, brands_len, out, sizeof out));
    say("restore", bustardcase_restore(expanded, sizeof expanded - 1, mif3, 0, brands, brands_len, out, sizeof out));
    say("expand", bustardcase_expand(payload, payload_len, mif3, 0, brands, brands_len, out, 0));
    say("expand", bustardcase_expand(payload, payload_len, mif3, 0, brands, 3, out, sizeof out));
    say("read", bustardcase_read(payload, payload_len - 1, out, sizeof out));
    say("file_type", bustardcase_file_type(body, 7, out, sizeof out));
    say("file_type", bustardcase_file_type(body, 11, out, sizeof out));
    return 0;
}
