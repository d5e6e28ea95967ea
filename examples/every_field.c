/* Prints every field of every layout by its name, for payloads that differ in each field: a row for a field, a column for a
   payload. At the repository's root:
   cc -I include examples/every_field.c target/staticlib/libexports*.a -o target/fields && target/fields */
#include <stdio.h>
#include <stdlib.h>
#include <string.h>
#include "bustardcase.h"

static const char *const payloads[] = {
    "2FEE84EE093FE721F615998D8D8D1121151FA0ECFCB3551F8902A125ECF7AE505A185EC38AD11F3B90DB77B971A2F39EC5D65F950479E6AD"
    "647BBF71F4D1A4175F6BC0D5024E765415F800B5177759A2C1E018E9F22054D17A7FA58E24545EDB1AF0881F3D5FD6ADAF4BDBAF9255ADD5"
    "2E0512A838F0309F66D7C77D5A622D28EBFF52AE078D8077467F1AC84EF98571F4D12BDCF27F42D8FCFDCDB0EF618000902008000F580000"
    "00001000AAAAAAAAAAAAAAAAAAAAAAAAAAAAAAAAAAAAAAAAAAAAAAAAAAAAAAAAAAAAAAAAAAAAAAAAAAAAAAAAAAAAAAAAAAAAAAAAAA",
    "0BE180080035C04BC833A4E351C55670192EE9DAFACCA8776E9D988B05AEE5A42E5574A22DDE65E23CBB10B5E5EA764951C756637045B435"
    "D2A00100C001BA0000020060AAAAAAAAAAAAAAAAAAAAAAAAAAAAAAAAAAAAAAAAAAAAAAAAAAAAAAAA",
    "134B876F052A916689F9418F25003268C652C27F3AA1E0F12CA3F62C79DFAAE42F0D49C613C2C7CBF87421DC95D6E73814B66CD05B16E545"
    "EA75A7DFD6E31D0DEEB6299A54EA1E4EAB3712AC0255E989B8F458B91D75C9F5624E378E486C7A87E5F200100040009800040000AAAAAAAA"
    "AAAAAAAAAAAAAAAAAAAAAAAAAAAAAAAAAAAAAAAAAAAAAAAAAA",
    "258F897D0A657985858D951D1D211E88E3A154A9B6684C7DB55DF2B0DE320948EA2F49FF231BBA30FDB7E49C8A1462E06A02DC1F5FF03C1A"
    "3E313922BA6155005374C1E52EE57225BCEF388185C62A22613264266005020020006940008000AAAAAAAAAAAAAAAAAAAAAAAAAAAAAAAAAA"
    "AAAAAAAAAAAAAAAAAAAAAAAAAAAAAAAAAAAAAAAAAAAAAAAAAAAAAAAAAAAAAAAAAAAA",
    "016A805000107438E0950A22C2EE33B83A218BF5DE10DEEF1A0C581AB74778749CAA5DE9EB00EBA401A6E682B1CC86759FCED96050B1D693"
    "3F1D1502747BDCC69C78AFCE976CCCF48D38888A6E69CA842C4061ED75BD6DDB68E2837802A30892820765BE2F2FE698800000222000E018"
    "02AAAAAAAAAAAAAAAAAAAAAAAAAAAAAAAAAAAAAAAAAAAAAAAAAAAAAAAAAAAAAAAA",
    "0C1573C28840018004A0AAAAAAAAAAAAAAAAAAAAAAAAAAAAAA",
    "253480750018B32B33233A22222A243CC60A2A11E1BC9265D77778893128F6106A9A5B14E7874AE715ED119BD5E24365BAC080DCB5B45E33"
    "7029FF731A6F19AE5A823129CC9C2AF8EC6623C0A3FE6D7DF4082A27BCA6C008000F50004000460080AAAAAAAAAAAAAAAAAAAAAAAAAAAAAA"
    "AAAAAAAAAAAAAAAAAAAAAAAAAAAAAAAAAAAA",
    "1BC0CE51F9A52C538BFD651F2DC53C4BEE636DA8A4B083D31AADABACDCCC9425369EA292B049153AD18EBE4F4B4C95EDE32C0F417BC2C690"
    "0CF38CBFE9428F95D827B00B0C3C278BF892EB198E49A6DA800407000860006000AAAAAAAAAAAAAAAAAAAAAAAAAAAAAAAAAAAAAAAAAAAAAA"
    "AAAAAA",
    "2DCC83B90AE7AD0CEC4C68E8C8A8350BD0E4768A3A18D92A0412EFF9823F7AED098592E3A8AEC78F5D6B798FFE2C00480A00008003000001"
    "00AAAAAAAAAAAAAAAAAAAAAAAAAAAAAAAAAAAAAAAAAAAAAAAAAAAAAA",
    "2BAF867400036010754B131B13423A2A2A43A6EAFA0C7396BF135B48CB35BA279B009C191C774B4AC41144195AF5E18E160D09EE119A4FF4"
    "D51E4FFE7AF73E75BDFA4911E280CF8BE1B23550010000A020AAAAAAAAAAAAAAAAAAAAAAAAAAAAAAAAAAAAAA",
    "1BE88077099A01F6A4A1275C2F4DD364A02B80090001C05020AAAAAAAAAAAAAAAAAAAAAAAAAAAAAAAAAAAAAAAAAAAAAAAAAAAAAAAAAA",
    "00402F3E00000002AAAAAAAA",
};

/* Payloads that are refused, for each reason and in several parts, one of them with every chunk, and one that is not. */
static const char *const broken[] = {
    "", "40", "1000000180", "00000000000001AA", "00000000000000", "0400000000002000" "30A1A2", "010000001008", "20000000617630",
    "05E00000600080000060200C002190010001D0090280" "C0A0A06060601C1C1C1C7C7C7C7C7C" "6D6D6D6D6D6DADADAD",
    "00000000000000AA",
};

/* A small box, one with an extended type, and one with a largesize; and where they start. */
static const char boxes[] = "0000000D6672656501020304050000001B75756964A1A2A3A4A5A6A7A8A9B0B1B2B3B4B5B6AABBCC"
                            "000000016D6461740000000000000012DDEE";
static const char *const starts[] = {"00", "0D", "28"};

static const char *const bodies[] = {"6D6966330000000761766966", "617669660A0B0C0D6D6966316D696166"};

enum { COLUMNS = sizeof payloads / sizeof *payloads, MOST = 512 };

/* What a function wrote, for each column, with as many bytes lent as it needs. */
static uint8_t out[COLUMNS][BUSTARDCASE_OUTLINE_LEN];
static int columns;

static size_t decode(const char *digits, uint8_t *bytes)
{
    size_t n = 0;
    for (; digits[2 * n] != '\0'; n++) {
        const char two[] = {digits[2 * n], digits[2 * n + 1], '\0'};
        bytes[n] = (uint8_t)strtoul(two, NULL, 16);
    }
    return n;
}

static void expect(uint64_t answer, unsigned refusal, uint64_t value)
{
    if (BUSTARDCASE_REFUSAL(answer) != refusal || BUSTARDCASE_VALUE(answer) != value) {
        printf("refusal %u, value %lu\n", BUSTARDCASE_REFUSAL(answer), (unsigned long)BUSTARDCASE_VALUE(answer));
        exit(1);
    }
}

typedef uint64_t function(const uint8_t *, size_t, uint8_t *, size_t);

static uint64_t header_at(const uint8_t *start, size_t start_len, uint8_t *to, size_t to_len)
{
    uint8_t buf[MOST];
    const size_t len = decode(boxes, buf);
    (void)start_len;
    return bustardcase_box_header(buf, len, *start, to, to_len);
}

/* Fills the columns, each with an output of exactly the layout's length; one byte less is refused. */
static void fill(const char *name, function *f, const char *const *inputs, int count, size_t len)
{
    uint8_t bytes[MOST];
    printf("\n%s: %lu bytes\n", name, (unsigned long)len);
    columns = count;
    for (int i = 0; i < count; i++) {
        const size_t bytes_len = decode(inputs[i], bytes);
        memset(out[i], 0xEE, sizeof out[i]);
        expect(f(bytes, bytes_len, out[i], len - 1), BUSTARDCASE_REFUSAL_SHORT_OUTPUT, len);
        expect(f(bytes, bytes_len, out[i], len), BUSTARDCASE_DONE, len);
    }
}

static unsigned long number(const uint8_t *at, int bytes)
{
    unsigned long n = 0;
    while (bytes-- > 0)
        n = n << 8 | *at++;
    return n;
}

static void one(const uint8_t *at) { printf(" %11lu", number(at, 1)); }
static void four(const uint8_t *at) { printf("    %08lX", number(at, 4)); }
static void eight(const uint8_t *at) { printf(" %11lu", number(at, 8)); }
static void sixteen(const uint8_t *at) { printf(" %03lX..%06lX", number(at, 8) >> 52, number(at + 8, 8) & 0xFFFFFF); }

static void place(unsigned long position, unsigned long length)
{
    char text[32];
    sprintf(text, "%lu+%lu", position, length);
    printf(" %11s", text);
}

static void span(const uint8_t *at)
{
    place(number(at + BUSTARDCASE_SPAN_POSITION, 8), number(at + BUSTARDCASE_SPAN_LENGTH, 8));
}

static void chunk(const uint8_t *at)
{
    if (at[BUSTARDCASE_CHUNK_PRESENT] == 1)
        place(number(at + BUSTARDCASE_CHUNK_POSITION, 8), number(at + BUSTARDCASE_CHUNK_LENGTH, 8));
    else
        printf(" %11s", "-");
}

static void entry(const uint8_t *at)
{
    printf(" %2u", at[BUSTARDCASE_OUTLINE_ENTRY_NUMBER]);
    chunk(at + BUSTARDCASE_OUTLINE_ENTRY_CHUNK);
}

static void row(const char *name, void (*print)(const uint8_t *), size_t at)
{
    printf("%-40s", name);
    for (int i = 0; i < columns; i++)
        print(out[i] + at);
    printf("\n");
}

/* First and last byte of a body that is present. */
static void body(const char *hdr, const char *name, size_t has, size_t at, size_t len)
{
    printf("%-35s %s", hdr, name);
    for (int i = 0; i < columns; i++)
        if (out[i][has] == 1)
            printf("      %02X..%02X", out[i][at], out[i][at + len - 1]);
        else
            printf(" %11s", "-");
    printf("\n");
}

static void hdr(const char *name, size_t at)
{
    body(name, "clli", at + BUSTARDCASE_HDR_HAS_CLLI, at + BUSTARDCASE_HDR_CLLI, 4);
    body(name, "mdcv", at + BUSTARDCASE_HDR_HAS_MDCV, at + BUSTARDCASE_HDR_MDCV, 24);
    body(name, "cclv", at + BUSTARDCASE_HDR_HAS_CCLV, at + BUSTARDCASE_HDR_CCLV, 5);
    body(name, "amve", at + BUSTARDCASE_HDR_HAS_AMVE, at + BUSTARDCASE_HDR_AMVE, 8);
    body(name, "reve", at + BUSTARDCASE_HDR_HAS_REVE, at + BUSTARDCASE_HDR_REVE, 20);
    body(name, "ndwt", at + BUSTARDCASE_HDR_HAS_NDWT, at + BUSTARDCASE_HDR_NDWT, 4);
}

#define ROW(name, print) row(#name, print, BUSTARDCASE_##name)
#define HDR(name) hdr(#name, BUSTARDCASE_##name)

static void box_header(void)
{
    fill("box_header", header_at, starts, 3, BUSTARDCASE_BOX_HEADER_LEN);
    ROW(BOX_HEADER_TYPE, four);
    ROW(BOX_HEADER_HAS_EXTENDED_TYPE, one);
    ROW(BOX_HEADER_EXTENDED_TYPE, sixteen);
    ROW(BOX_HEADER_START, eight);
    ROW(BOX_HEADER_PAYLOAD_START, eight);
    ROW(BOX_HEADER_PAYLOAD_LENGTH, eight);
}

static void file_type(void)
{
    fill("file_type", bustardcase_file_type, bodies, 2, BUSTARDCASE_FILE_TYPE_LEN);
    ROW(FILE_TYPE_MAJOR_BRAND, four);
    ROW(FILE_TYPE_MINOR_VERSION, four);
    ROW(FILE_TYPE_COMPATIBLE_BRANDS, span);
}

static void record(void)
{
    fill("read", bustardcase_read, payloads, COLUMNS, BUSTARDCASE_RECORD_LEN);
    ROW(RECORD_HAS_CODEC_TYPES, one);
    ROW(RECORD_ITEM_TYPE, four);
    ROW(RECORD_CONFIG_TYPE, four);
    ROW(RECORD_FLOAT, one);
    ROW(RECORD_BITS, one);
    ROW(RECORD_FULL_RANGE, one);
    ROW(RECORD_SUBSAMPLING, one);
    ROW(RECORD_HORIZONTALLY_CENTERED, one);
    ROW(RECORD_VERTICALLY_CENTERED, one);
    ROW(RECORD_ORIENTATION, one);
    ROW(RECORD_WIDTH, four);
    ROW(RECORD_HEIGHT, four);
    ROW(RECORD_HAS_CICP, one);
    ROW(RECORD_PRIMARIES, one);
    ROW(RECORD_TRANSFER, one);
    ROW(RECORD_MATRIX, one);
    ROW(RECORD_ICC, chunk);
    ROW(RECORD_ALPHA, one);
    ROW(RECORD_ALPHA_PREMULTIPLIED, one);
    ROW(RECORD_HDR, one);
    HDR(RECORD_HDR_BOXES);
    ROW(RECORD_HAS_GAIN_MAP, one);
    ROW(RECORD_GAIN_MAP_WIDTH, four);
    ROW(RECORD_GAIN_MAP_HEIGHT, four);
    ROW(RECORD_GAIN_MAP_MATRIX, one);
    ROW(RECORD_GAIN_MAP_FULL_RANGE, one);
    ROW(RECORD_GAIN_MAP_SUBSAMPLING, one);
    ROW(RECORD_GAIN_MAP_HORIZONTALLY_CENTERED, one);
    ROW(RECORD_GAIN_MAP_VERTICALLY_CENTERED, one);
    ROW(RECORD_GAIN_MAP_FLOAT, one);
    ROW(RECORD_GAIN_MAP_BITS, one);
    ROW(RECORD_HAS_TMAP_CICP, one);
    ROW(RECORD_TMAP_PRIMARIES, one);
    ROW(RECORD_TMAP_TRANSFER, one);
    ROW(RECORD_TMAP_MATRIX, one);
    ROW(RECORD_TMAP_FULL_RANGE, one);
    ROW(RECORD_TMAP_ICC, chunk);
    HDR(RECORD_TMAP_HDR_BOXES);
    ROW(RECORD_GAIN_MAP_METADATA, span);
    ROW(RECORD_GAIN_MAP_CONFIG, chunk);
    ROW(RECORD_GAIN_MAP_DATA, span);
    ROW(RECORD_MAIN_CONFIG, span);
    ROW(RECORD_MAIN_DATA, span);
    ROW(RECORD_ALPHA_CONFIG, chunk);
    ROW(RECORD_ALPHA_DATA, span);
    ROW(RECORD_EXIF_XMP_COMPRESSED, one);
    ROW(RECORD_EXIF, chunk);
    ROW(RECORD_XMP, chunk);
}

static void check(void)
{
    fill("check", bustardcase_check, payloads, COLUMNS, BUSTARDCASE_CHECK_LEN);
    ROW(CHECK_PASSES, one);
    ROW(CHECK_INTEGER_SAMPLES, one);
    ROW(CHECK_NO_GAIN_MAP, one);
    ROW(CHECK_EXIF_PRESENT, one);
    ROW(CHECK_WIDTH_FITS, one);
    ROW(CHECK_HEIGHT_FITS, one);
    ROW(CHECK_SHOWN_WIDTH, four);
    ROW(CHECK_SHOWN_HEIGHT, four);
}

static void outline(void)
{
    fill("outline", bustardcase_outline, payloads, COLUMNS, BUSTARDCASE_OUTLINE_LEN);
    ROW(OUTLINE_FLAGS, eight);
    ROW(OUTLINE_DIMENSIONS, eight);
    ROW(OUTLINE_CHROMA_CENTRING, eight);
    ROW(OUTLINE_SAMPLE_FORMAT, eight);
    ROW(OUTLINE_ALPHA_PREMULTIPLIED, eight);
    ROW(OUTLINE_EXPLICIT_CICP, eight);
    ROW(OUTLINE_EXPLICIT_CODEC_TYPES, eight);
    ROW(OUTLINE_GAIN_MAP, eight);
    ROW(OUTLINE_HDR_BOXES, eight);
    ROW(OUTLINE_TMAP_HDR_BOXES, eight);
    ROW(OUTLINE_CHUNK_SIZES, eight);
    ROW(OUTLINE_TRAILING_BITS, eight);
    for (int i = 0; i < 11; i++)
        row("OUTLINE_BY_SIZE", entry, BUSTARDCASE_OUTLINE_BY_SIZE + i * BUSTARDCASE_OUTLINE_ENTRY_LEN);
    for (int i = 0; i < 11; i++)
        row("OUTLINE_AS_THEY_LIE", entry, BUSTARDCASE_OUTLINE_AS_THEY_LIE + i * BUSTARDCASE_OUTLINE_ENTRY_LEN);
    ROW(OUTLINE_IGNORED, eight);
}

static void diagnosis(void)
{
    fill("diagnosis", bustardcase_diagnose, broken, sizeof broken / sizeof *broken, BUSTARDCASE_DIAGNOSIS_LEN);
    ROW(DIAGNOSIS_REFUSAL, one);
    ROW(DIAGNOSIS_BIT, eight);
    ROW(DIAGNOSIS_PART, one);
    for (int i = 0; i < 12; i++)
        row("DIAGNOSIS_ENDS", eight, BUSTARDCASE_DIAGNOSIS_ENDS + i * 8);
    ROW(DIAGNOSIS_CHUNK, one);
    ROW(DIAGNOSIS_LENGTH, eight);
    ROW(DIAGNOSIS_MISSING, eight);
    for (int i = 0; i < 11; i++)
        row("DIAGNOSIS_AS_THEY_LIE", entry, BUSTARDCASE_DIAGNOSIS_AS_THEY_LIE + i * BUSTARDCASE_OUTLINE_ENTRY_LEN);
}

int main(void)
{
    box_header();
    file_type();
    record();
    check();
    outline();
    diagnosis();
    return 0;
}
