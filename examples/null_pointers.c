/* Where a length is 0, the pointer may be null: each function answers as for an empty buffer. At the repository's root:
   cc -O2 -I include examples/null_pointers.c target/staticlib/libexports*.a -o target/nulls && target/nulls */
#include <stdio.h>
#include "bustardcase.h"

static const uint8_t payload[] = "\x20\0\0\0av01av1C\0\0\0\xAA";
static const uint8_t boxes[] = "\0\0\0\x08""free";
static const uint8_t body[] = "mif3\0\0\0\0mif3";
enum { PAYLOAD_LEN = sizeof payload - 1, BOXES_LEN = sizeof boxes - 1, BODY_LEN = sizeof body - 1, MIF3 = 0x6D696633 };

static uint8_t out[BUSTARDCASE_OUTLINE_LEN], file[480];
static int differ;

static void say(const char *what, uint64_t of_null, uint64_t of_empty)
{
    printf("%-26s refusal %2u  value %3u\n", what, BUSTARDCASE_REFUSAL(of_null), (unsigned)BUSTARDCASE_VALUE(of_null));
    if (of_null != of_empty) {
        printf("%-26s refusal %2u  value %3u\n", "  with an empty buffer", BUSTARDCASE_REFUSAL(of_empty),
               (unsigned)BUSTARDCASE_VALUE(of_empty));
        differ = 1;
    }
}

/* `empty` is not null. The input is null, then the output, then both. */
#define THREE(name, function, input, input_len)                                                                  \
    say(name ", no input", function(NULL, 0, out, sizeof out), function(empty, 0, out, sizeof out));               \
    say(name ", no output", function(input, input_len, NULL, 0), function(input, input_len, empty, 0));            \
    say(name ", neither", function(NULL, 0, NULL, 0), function(empty, 0, empty, 0))

static uint64_t box_header(const uint8_t *buf, size_t len, uint8_t *to, size_t to_len)
{
    return bustardcase_box_header(buf, len, 0, to, to_len);
}

static uint64_t find_box(const uint8_t *buf, size_t len, uint8_t *to, size_t to_len)
{
    return bustardcase_find_box(buf, len, 0x66726565, to, to_len);
}

static uint64_t expand(const uint8_t *from, size_t len, uint8_t *to, size_t to_len)
{
    return bustardcase_expand(from, len, MIF3, 0, NULL, 0, to, to_len);
}

static uint64_t find_mini(const uint8_t *from, size_t len, uint8_t *to, size_t to_len)
{
    return bustardcase_find_mini(from, len, MIF3, 0, NULL, 0, to, to_len);
}

static uint64_t restore(const uint8_t *from, size_t len, uint8_t *to, size_t to_len)
{
    return bustardcase_restore(from, len, MIF3, 0, NULL, 0, to, to_len);
}

int main(void)
{
    uint8_t buffer[1] = {0}, *empty = buffer;
    expand(payload, PAYLOAD_LEN, file, sizeof file);
    THREE("box_header", box_header, boxes, BOXES_LEN);
    THREE("find_box", find_box, boxes, BOXES_LEN);
    THREE("file_type", bustardcase_file_type, body, BODY_LEN);
    THREE("read", bustardcase_read, payload, PAYLOAD_LEN);
    THREE("check", bustardcase_check, payload, PAYLOAD_LEN);
    THREE("outline", bustardcase_outline, payload, PAYLOAD_LEN);
    THREE("diagnose", bustardcase_diagnose, payload, PAYLOAD_LEN);
    THREE("rewrite", bustardcase_rewrite, payload, PAYLOAD_LEN);
    THREE("expand", expand, payload, PAYLOAD_LEN);
    THREE("find_mini", find_mini, file, sizeof file);
    THREE("restore", restore, file, sizeof file);
    say("expand, no brands", bustardcase_expand(payload, PAYLOAD_LEN, MIF3, 0, NULL, 0, out, sizeof out),
        bustardcase_expand(payload, PAYLOAD_LEN, MIF3, 0, empty, 0, out, sizeof out));
    say("find_mini, no brands", bustardcase_find_mini(file, sizeof file, MIF3, 0, NULL, 0, out, sizeof out),
        bustardcase_find_mini(file, sizeof file, MIF3, 0, empty, 0, out, sizeof out));
    return differ;
}
