/* Reads a payload with alpha: where do the main data and the alpha data lie? At the repository's root:
   cc -I include examples/read.c target/staticlib/libexports.a -o target/read && target/read */
#include <stdio.h>
#include "bustardcase.h"

static unsigned long number(const uint8_t *at, int bytes)
{
    unsigned long n = 0;
    while (bytes-- > 0)
        n = n << 8 | *at++;
    return n;
}

int main(void)
{
    const uint8_t payload[] = {4, 0, 0, 0, 0, 0, 0, 0, 0x10, 0xBB, 0xAA};
    uint8_t record[BUSTARDCASE_RECORD_LEN];
    uint64_t answer = bustardcase_read(payload, sizeof payload, record, sizeof record);
    if (BUSTARDCASE_REFUSAL(answer) != BUSTARDCASE_DONE)
        return 1;
    unsigned long main_data = number(record + BUSTARDCASE_RECORD_MAIN_DATA + BUSTARDCASE_SPAN_POSITION, 8);
    unsigned long alpha_data = number(record + BUSTARDCASE_RECORD_ALPHA_DATA + BUSTARDCASE_SPAN_POSITION, 8);
    printf("%lu by %lu\n", number(record + BUSTARDCASE_RECORD_WIDTH, 4), number(record + BUSTARDCASE_RECORD_HEIGHT, 4));
    printf("main data at %lu: %X\n", main_data, payload[main_data]);
    printf("alpha data at %lu: %X\n", alpha_data, payload[alpha_data]);
    answer = bustardcase_read(payload, sizeof payload - 1, record, sizeof record);
    printf("one byte less: refusal %u at bit %lu\n", BUSTARDCASE_REFUSAL(answer), (unsigned long)BUSTARDCASE_VALUE(answer));
    return 0;
}
