/* Bustardcase: the low-overhead image format (ISO/IEC 23008-12 Amd 2, Annex O: the MinimizedImageBox, 'mini'), proved.

   Link target/staticlib/libexports.a; for bustardcase_outline and bustardcase_diagnose also libexports_outline.a, for
   bustardcase_find_mini and bustardcase_restore also libexports_find.a. ./bustardcase makes all three, and they need no other
   library. docs/ABI.md says the same at more length; examples/ has programs.

   A slice is passed as a pointer and a length. Where the length is 0, the pointer may be null. Outputs must not overlap
   inputs. Nothing is kept after a call, and nothing is allocated; the functions may be called from several threads. */
#ifndef BUSTARDCASE_H
#define BUSTARDCASE_H

#include <stddef.h>
#include <stdint.h>

#ifdef __cplusplus
extern "C" {
#endif

/* Each function returns refusal * 2^48 + value. The value is

     under BUSTARDCASE_DONE                  how many bytes were written at the start of `out`; no other byte of it was changed
     under BUSTARDCASE_REFUSAL_SHORT_OUTPUT  how many bytes `out` must have; it keeps its bytes
     under the refusals of reading, 5 to 9   the bit of the payload at which reading broke off; `out` keeps its bytes
     under any other refusal                 0; `out` keeps its bytes */
#define BUSTARDCASE_REFUSAL(answer) ((unsigned)((uint64_t)(answer) >> 48))
#define BUSTARDCASE_VALUE(answer) ((uint64_t)(answer) & (((uint64_t)1 << 48) - 1))

/* The bit counts from 0, the high bit of a byte first, and can have 33 bits. Under 5 to 7 it is where the field begins that was
   being read; a codec type is one field, and so is an HDR body, but for a cclv body: its flags byte is one, what follows it
   another. Under 8 it is the first trailing bit, under 9 the first byte, times 8, of the first chunk in stored order that ends
   past the payload. bustardcase_diagnose says what stands there. */

/* The refusals of a call are tried in the order in which it lists them, 16 last; in reading, 5 to 7 go by bit order. */
enum bustardcase_refusal {
    BUSTARDCASE_DONE = 0,                       /* not refused */
    BUSTARDCASE_REFUSAL_BOX_HEADER_CUT = 1,     /* fewer than 8 bytes are left for a box header, a start past the end included */
    BUSTARDCASE_REFUSAL_LARGE_SIZE_CUT = 2,     /* a box has size 1, and fewer than 16 bytes remain */
    BUSTARDCASE_REFUSAL_BOX_SIZE = 3,           /* a box's size is 2 to 7, its largesize below 16, or either beyond what remains */
    BUSTARDCASE_REFUSAL_EXTENDED_TYPE_CUT = 4,  /* a 'uuid' box ends before its 16-byte extended type does */
    BUSTARDCASE_REFUSAL_HEADER_CUT = 5,         /* a header field, or a body among the HDR boxes, needs bits past the end */
    BUSTARDCASE_REFUSAL_VERSION = 6,            /* the version is not 0 */
    BUSTARDCASE_REFUSAL_FLOAT_DEPTH = 7,        /* the two-bit float depth code is 3 */
    BUSTARDCASE_REFUSAL_TRAILING_BITS = 8,      /* the bits up to the byte boundary after the header aren't all zero */
    BUSTARDCASE_REFUSAL_CHUNK_PAST_END = 9,     /* a chunk, taken in stored order, ends past the payload */
    BUSTARDCASE_REFUSAL_CHUNK_PAST_SOURCE = 10, /* 10 and 11 are of records that were not read from the payload lent: */
    BUSTARDCASE_REFUSAL_NOT_WRITABLE = 11,      /* no function here gives them */
    BUSTARDCASE_REFUSAL_EMPTY_ALPHA = 12,       /* alpha is set and the alpha data is empty */
    BUSTARDCASE_REFUSAL_UUID_CODEC_TYPE = 13,   /* an explicit codec type is 'uuid' */
    BUSTARDCASE_REFUSAL_NO_CODEC_TYPES = 14,    /* there are no explicit codec types */
    BUSTARDCASE_REFUSAL_BRANDS = 15,            /* the brands aren't a multiple of 4 bytes, or are over 4,096 bytes */
    BUSTARDCASE_REFUSAL_SHORT_OUTPUT = 16,      /* the output is shorter than the result */
    BUSTARDCASE_REFUSAL_NOT_AN_EXPANSION = 17,  /* no record with explicit codec types expands to the file under that file type */
    BUSTARDCASE_REFUSAL_NOT_A_FILE_TYPE = 28    /* no original file type: fewer than 8 bytes, or brands as under 15 */
};

/* What the functions write has a fixed layout, except for boxes and expanded files. Below, a layout's _LEN is its length, and
   every other constant is where a field begins; after it stands how many bytes the field has. Numbers are big-endian. A flag
   is 1 or 0. What is absent has zeros in its place.

   Three parts occur several times. Their constants count from where the part begins. */

/* SPAN, 16 bytes: where bytes lie, in the bytes lent. */
enum bustardcase_span {
    BUSTARDCASE_SPAN_POSITION = 0, /* 8 */
    BUSTARDCASE_SPAN_LENGTH = 8    /* 8 */
};

/* CHUNK, 17 bytes: a span that may be absent. */
enum bustardcase_chunk {
    BUSTARDCASE_CHUNK_PRESENT = 0,  /* 1: flag */
    BUSTARDCASE_CHUNK_POSITION = 1, /* 8 */
    BUSTARDCASE_CHUNK_LENGTH = 9    /* 8 */
};

/* HDR, 103 bytes: which of six boxes are present, then their bodies. */
enum bustardcase_hdr {
    BUSTARDCASE_HDR_HAS_CLLI = 0, /* 1: flag, as the next five */
    BUSTARDCASE_HDR_HAS_MDCV = 1,
    BUSTARDCASE_HDR_HAS_CCLV = 2,
    BUSTARDCASE_HDR_HAS_AMVE = 3,
    BUSTARDCASE_HDR_HAS_REVE = 4,
    BUSTARDCASE_HDR_HAS_NDWT = 5,
    BUSTARDCASE_HDR_CLLI = 6,  /* 4 */
    BUSTARDCASE_HDR_MDCV = 10, /* 24 */
    BUSTARDCASE_HDR_CCLV = 34, /* 37: the body, whose length follows from its first byte, then zeros */
    BUSTARDCASE_HDR_AMVE = 71, /* 8 */
    BUSTARDCASE_HDR_REVE = 79, /* 20 */
    BUSTARDCASE_HDR_NDWT = 99  /* 4 */
};

/* The header of the box at `start` of `buf`. Refusals 1, 2, 3, 4, 16. */
uint64_t bustardcase_box_header(const uint8_t *buf, size_t buf_len, size_t start, uint8_t *out, size_t out_len);

enum bustardcase_box_header_layout {
    BUSTARDCASE_BOX_HEADER_TYPE = 0,              /* 4 */
    BUSTARDCASE_BOX_HEADER_HAS_EXTENDED_TYPE = 4, /* 1: flag */
    BUSTARDCASE_BOX_HEADER_EXTENDED_TYPE = 5,     /* 16 */
    BUSTARDCASE_BOX_HEADER_START = 21,            /* 8: the header's first byte, counted from the start of `buf` */
    BUSTARDCASE_BOX_HEADER_PAYLOAD_START = 29,    /* 8 */
    BUSTARDCASE_BOX_HEADER_PAYLOAD_LENGTH = 37,   /* 8 */
    BUSTARDCASE_BOX_HEADER_LEN = 45
};

/* The header of the first box of type `box_type` (its first character the highest byte) among the boxes that follow one
   another from the start of `buf`, in the layout of bustardcase_box_header. Refusals 1, 2, 3, 4, 16: where there is no such
   box, that of the header at which the walk ended, which is 1 at the end of the buffer. */
uint64_t bustardcase_find_box(const uint8_t *buf, size_t buf_len, uint32_t box_type, uint8_t *out, size_t out_len);

/* The file type that the payload of an 'ftyp' box gives. Refusals 28, 16. */
uint64_t bustardcase_file_type(const uint8_t *body, size_t body_len, uint8_t *out, size_t out_len);

enum bustardcase_file_type_layout {
    BUSTARDCASE_FILE_TYPE_MAJOR_BRAND = 0,       /* 4 */
    BUSTARDCASE_FILE_TYPE_MINOR_VERSION = 4,     /* 4 */
    BUSTARDCASE_FILE_TYPE_COMPATIBLE_BRANDS = 8, /* SPAN, in `body` */
    BUSTARDCASE_FILE_TYPE_LEN = 24
};

/* The record of a `mini` payload: the bytes after the box header. Refusals 5, 6, 7, 8, 9, 16. */
uint64_t bustardcase_read(const uint8_t *payload, size_t payload_len, uint8_t *out, size_t out_len);

enum bustardcase_record_layout {
    BUSTARDCASE_RECORD_HAS_CODEC_TYPES = 0,        /* 1: flag, explicit codec types */
    BUSTARDCASE_RECORD_ITEM_TYPE = 1,              /* 4 */
    BUSTARDCASE_RECORD_CONFIG_TYPE = 5,            /* 4 */
    BUSTARDCASE_RECORD_FLOAT = 9,                  /* 1: 0 integer samples, 1 float */
    BUSTARDCASE_RECORD_BITS = 10,                  /* 1 */
    BUSTARDCASE_RECORD_FULL_RANGE = 11,            /* 1: flag */
    BUSTARDCASE_RECORD_SUBSAMPLING = 12,           /* 1: 0 is 4:0:0, 1 is 4:2:0, 2 is 4:2:2, 3 is 4:4:4 */
    BUSTARDCASE_RECORD_HORIZONTALLY_CENTERED = 13, /* 1: flag */
    BUSTARDCASE_RECORD_VERTICALLY_CENTERED = 14,   /* 1: flag */
    BUSTARDCASE_RECORD_ORIENTATION = 15,           /* 1: 1 to 8, as in Exif */
    BUSTARDCASE_RECORD_WIDTH = 16,                 /* 4: as stored; bustardcase_check has it as shown */
    BUSTARDCASE_RECORD_HEIGHT = 20,                /* 4: likewise */
    BUSTARDCASE_RECORD_HAS_CICP = 24,              /* 1: flag, explicit cicp */
    BUSTARDCASE_RECORD_PRIMARIES = 25,             /* 1 */
    BUSTARDCASE_RECORD_TRANSFER = 26,              /* 1 */
    BUSTARDCASE_RECORD_MATRIX = 27,                /* 1 */
    BUSTARDCASE_RECORD_ICC = 28,                   /* CHUNK */
    BUSTARDCASE_RECORD_ALPHA = 45,                 /* 1: flag */
    BUSTARDCASE_RECORD_ALPHA_PREMULTIPLIED = 46,   /* 1: flag */
    BUSTARDCASE_RECORD_HDR = 47,                   /* 1: flag */
    BUSTARDCASE_RECORD_HDR_BOXES = 48,             /* HDR */
    BUSTARDCASE_RECORD_HAS_GAIN_MAP = 151,         /* 1: flag; all up to MAIN_CONFIG is of the gain map */
    BUSTARDCASE_RECORD_GAIN_MAP_WIDTH = 152,       /* 4 */
    BUSTARDCASE_RECORD_GAIN_MAP_HEIGHT = 156,      /* 4 */
    BUSTARDCASE_RECORD_GAIN_MAP_MATRIX = 160,      /* 1 */
    BUSTARDCASE_RECORD_GAIN_MAP_FULL_RANGE = 161,  /* 1: flag */
    BUSTARDCASE_RECORD_GAIN_MAP_SUBSAMPLING = 162, /* 1: as above, and so the next four */
    BUSTARDCASE_RECORD_GAIN_MAP_HORIZONTALLY_CENTERED = 163,
    BUSTARDCASE_RECORD_GAIN_MAP_VERTICALLY_CENTERED = 164,
    BUSTARDCASE_RECORD_GAIN_MAP_FLOAT = 165,
    BUSTARDCASE_RECORD_GAIN_MAP_BITS = 166,
    BUSTARDCASE_RECORD_HAS_TMAP_CICP = 167,        /* 1: flag; TMAP is of the tone-mapped picture */
    BUSTARDCASE_RECORD_TMAP_PRIMARIES = 168,       /* 1 */
    BUSTARDCASE_RECORD_TMAP_TRANSFER = 169,        /* 1 */
    BUSTARDCASE_RECORD_TMAP_MATRIX = 170,          /* 1 */
    BUSTARDCASE_RECORD_TMAP_FULL_RANGE = 171,      /* 1: flag */
    BUSTARDCASE_RECORD_TMAP_ICC = 172,             /* CHUNK */
    BUSTARDCASE_RECORD_TMAP_HDR_BOXES = 189,       /* HDR */
    BUSTARDCASE_RECORD_GAIN_MAP_METADATA = 292,    /* SPAN */
    BUSTARDCASE_RECORD_GAIN_MAP_CONFIG = 308,      /* CHUNK */
    BUSTARDCASE_RECORD_GAIN_MAP_DATA = 325,        /* SPAN */
    BUSTARDCASE_RECORD_MAIN_CONFIG = 341,          /* SPAN */
    BUSTARDCASE_RECORD_MAIN_DATA = 357,            /* SPAN */
    BUSTARDCASE_RECORD_ALPHA_CONFIG = 373,         /* CHUNK */
    BUSTARDCASE_RECORD_ALPHA_DATA = 390,           /* SPAN */
    BUSTARDCASE_RECORD_EXIF_XMP_COMPRESSED = 406,  /* 1: flag */
    BUSTARDCASE_RECORD_EXIF = 407,                 /* CHUNK */
    BUSTARDCASE_RECORD_XMP = 424,                  /* CHUNK */
    BUSTARDCASE_RECORD_LEN = 441
};

/* The desk check of a payload's record. Refusals 5, 6, 7, 8, 9, 16. Width and height are those of the picture as shown: the
   orientations 5 to 8 exchange the stored ones. */
uint64_t bustardcase_check(const uint8_t *payload, size_t payload_len, uint8_t *out, size_t out_len);

enum bustardcase_check_layout {
    BUSTARDCASE_CHECK_PASSES = 0,          /* 1: flag, the display takes the picture as it is: the next five hold */
    BUSTARDCASE_CHECK_INTEGER_SAMPLES = 1, /* 1: flag, the samples are integers */
    BUSTARDCASE_CHECK_NO_GAIN_MAP = 2,     /* 1: flag, there is no gain map */
    BUSTARDCASE_CHECK_EXIF_PRESENT = 3,    /* 1: flag, Exif is present */
    BUSTARDCASE_CHECK_WIDTH_FITS = 4,      /* 1: flag, the width as shown is at most 1,920 */
    BUSTARDCASE_CHECK_HEIGHT_FITS = 5,     /* 1: flag, the height as shown is at most 1,080 */
    BUSTARDCASE_CHECK_SHOWN_WIDTH = 6,     /* 4 */
    BUSTARDCASE_CHECK_SHOWN_HEIGHT = 10,   /* 4 */
    BUSTARDCASE_CHECK_LEN = 14
};

/* Where the parts of a payload lie (in libexports_outline.a). Refusals 5, 6, 7, 8, 9, 16.

   The 12 parts of the header are given by where each ends, in bits from the payload's start, 8 bytes each. Each begins
   where the one before ends, the first at 0; one that is not stored ends where it begins.

   The 11 chunks are given twice, in the order in which their sizes are given and in the order in which they lie, as 11
   entries of ENTRY_LEN bytes, within which ENTRY_NUMBER and ENTRY_CHUNK count. They are numbered in the order of their
   sizes: 1 ICC, 2 tone map ICC, 3 gain-map metadata, 4 gain-map data, 5 gain-map configuration, 6 main configuration, 7 main
   data, 8 alpha data, 9 alpha configuration, 10 Exif, 11 XMP. They lie as 6 9 5 1 2 3 8 4 7 10 11. Main configuration and
   main data are always present, alpha data where alpha is set, a gain map's metadata and data where there is a gain map. */
uint64_t bustardcase_outline(const uint8_t *payload, size_t payload_len, uint8_t *out, size_t out_len);

enum bustardcase_outline_layout {
    BUSTARDCASE_OUTLINE_FLAGS = 0, /* 8, as the next eleven: version, flags, subsampling, orientation */
    BUSTARDCASE_OUTLINE_DIMENSIONS = 8,
    BUSTARDCASE_OUTLINE_CHROMA_CENTRING = 16,
    BUSTARDCASE_OUTLINE_SAMPLE_FORMAT = 24,
    BUSTARDCASE_OUTLINE_ALPHA_PREMULTIPLIED = 32,
    BUSTARDCASE_OUTLINE_EXPLICIT_CICP = 40,
    BUSTARDCASE_OUTLINE_EXPLICIT_CODEC_TYPES = 48,
    BUSTARDCASE_OUTLINE_GAIN_MAP = 56,
    BUSTARDCASE_OUTLINE_HDR_BOXES = 64,
    BUSTARDCASE_OUTLINE_TMAP_HDR_BOXES = 72,
    BUSTARDCASE_OUTLINE_CHUNK_SIZES = 80,
    BUSTARDCASE_OUTLINE_TRAILING_BITS = 88,
    BUSTARDCASE_OUTLINE_BY_SIZE = 96,      /* 198: entries in the order of the sizes */
    BUSTARDCASE_OUTLINE_AS_THEY_LIE = 294, /* 198: entries in the order of the places */
    BUSTARDCASE_OUTLINE_ENTRY_NUMBER = 0,  /* 1 */
    BUSTARDCASE_OUTLINE_ENTRY_CHUNK = 1,   /* CHUNK */
    BUSTARDCASE_OUTLINE_ENTRY_LEN = 18,
    BUSTARDCASE_OUTLINE_IGNORED = 492, /* 8: how many bytes after the last chunk are ignored */
    BUSTARDCASE_OUTLINE_LEN = 500
};

/* Where reading a payload broke off (in libexports_outline.a), for every payload, accepted or not: a refusal of reading is a
   part of what is written. Refusal 16 alone.

   Under 5 to 8, PART is the part of the header in which reading was refused, in the order of bustardcase_outline. The parts
   before it were read, and end as there; it and the later ones have the bit for their end. Under 9 all were read, and CHUNK is
   the number, as in bustardcase_outline, of the chunk that ends past the payload; it begins at byte BIT / 8.

   AS_THEY_LIE has the 11 chunks as the header gives them, in the entries of bustardcase_outline, whether or not the payload has
   their bytes: under 9 those before CHUNK are there, and those after it, where present, begin past the payload. Under 5 to 8 it
   is all zeros. */
uint64_t bustardcase_diagnose(const uint8_t *payload, size_t payload_len, uint8_t *out, size_t out_len);

enum bustardcase_diagnosis_layout {
    BUSTARDCASE_DIAGNOSIS_REFUSAL = 0,       /* 1: 5 to 9; 0 for a payload that is accepted */
    BUSTARDCASE_DIAGNOSIS_BIT = 1,           /* 8 */
    BUSTARDCASE_DIAGNOSIS_PART = 9,          /* 1: 1 to 12 under 5 to 8, else 0 */
    BUSTARDCASE_DIAGNOSIS_ENDS = 10,         /* 96: where the parts end, 8 each, as from BUSTARDCASE_OUTLINE_FLAGS on */
    BUSTARDCASE_DIAGNOSIS_CHUNK = 106,       /* 1: 1 to 11 under 9, else 0 */
    BUSTARDCASE_DIAGNOSIS_LENGTH = 107,      /* 8: how many bytes the chunk has */
    BUSTARDCASE_DIAGNOSIS_MISSING = 115,     /* 8: how many of these are missing */
    BUSTARDCASE_DIAGNOSIS_AS_THEY_LIE = 123, /* 198: entries in the order of the places */
    BUSTARDCASE_DIAGNOSIS_LEN = 321
};

/* The box of type `mini` that holds the record of a payload in its shortest form, header included. Refusals 5, 6, 7, 8, 9,
   16. The box without its first eight bytes reads to the same record, and every other payload that does is longer. */
uint64_t bustardcase_rewrite(const uint8_t *payload, size_t payload_len, uint8_t *out, size_t out_len);

/* The equivalent HEIF file of the record of a payload: `ftyp`, `meta`, `mdat`. `major`, `minor` and `brands` are major brand,
   minor version and compatible brands of the original file type; a brand is a number of 32 bits, its first character the
   highest byte, and `brands` their bytes one after another. Refusals 5, 6, 7, 8, 9, 12, 13, 14, 15, 16. */
uint64_t bustardcase_expand(const uint8_t *payload, size_t payload_len, uint32_t major, uint32_t minor,
                            const uint8_t *brands, size_t brands_len, uint8_t *out, size_t out_len);

/* The way back, for files whose originals are gone (in libexports_find.a): the record, with explicit codec types, that expands
   to exactly the bytes of `file` under that original file type, in the layout of bustardcase_read. Its chunks are spans of
   `file`, an empty one at 0. `major`, `minor` and `brands` are those of bustardcase_expand. Refusals 15, 17, 16.

   Of the records that expand to the file, it is one with a shortest payload. What the file does not carry is absent, zero or
   false, but a gain map's own size is the main picture's, and its format integers of 8 bits. */
uint64_t bustardcase_find_mini(const uint8_t *file, size_t file_len, uint32_t major, uint32_t minor,
                               const uint8_t *brands, size_t brands_len, uint8_t *out, size_t out_len);

/* The box of type `mini` that holds this record in its shortest form, header included, its chunks taken from `file` (in
   libexports_find.a). The box without its first eight bytes expands to exactly `file` under the same original file type, and no
   payload that does is shorter. Refusals 15, 17, 16. */
uint64_t bustardcase_restore(const uint8_t *file, size_t file_len, uint32_t major, uint32_t minor,
                             const uint8_t *brands, size_t brands_len, uint8_t *out, size_t out_len);

#ifdef __cplusplus
}
#endif

#endif
