/* The entries of libdesk.a for C and C++; docs/DESK.md says what each takes and answers.
 *
 * Every entry is total: any bytes and numbers give an answer. None keeps a pointer, allocates, or has state of its own,
 * so calls may run at the same time. What is lent (out, tally) must overlap nothing else that is handed in. A refusal
 * changes nothing that was lent, but for a tally under TENDERCHOCK_NO_PAIR; bytes of out past the answer stay as they
 * were. */
#ifndef TENDERCHOCK_H
#define TENDERCHOCK_H

#include <stddef.h>
#include <stdint.h>

#ifdef __cplusplus
extern "C" {
#endif

/* Kinds of text. */
enum tenderchock_kind {
    TENDERCHOCK_BED = 1,
    TENDERCHOCK_PSL = 2,
    TENDERCHOCK_CHAIN = 3
};

/* Reasons: 0, or the number of the refusal ledger. */
enum tenderchock_reason {
    TENDERCHOCK_ACCEPTED = 0,
    TENDERCHOCK_TEXT_TOO_LONG = 1,       /* the text is over 65,536 bytes */
    TENDERCHOCK_WRONG_COUNT = 2,         /* wrong number of words or lines */
    TENDERCHOCK_BYTE_NOT_ALLOWED = 3,    /* a byte that is not allowed */
    TENDERCHOCK_NUMBER_MISSPELT = 4,     /* a number is misspelt, or a list item is empty */
    TENDERCHOCK_NUMBER_OUT_OF_RANGE = 5, /* a number is outside its range */
    TENDERCHOCK_BAD_WORD = 6,            /* a bad fixed word, strand or name length; a kind that is none */
    TENDERCHOCK_SPAN_DISAGREES = 7,      /* start, end and size disagree */
    TENDERCHOCK_LIST_LENGTH = 8,         /* the list's length differs from the block count */
    TENDERCHOCK_BLOCK_RULES = 9,         /* the blocks break their rules */
    TENDERCHOCK_COUNTS_DISAGREE = 10,    /* the counts disagree; a bad tally */
    TENDERCHOCK_NO_ROOM = 11,            /* over 512 blocks, or too little room */
    TENDERCHOCK_NO_PAIR = 12,            /* no pair for this position or region */
    TENDERCHOCK_OUTSIDE_TARGET = 13      /* the position or region is not inside the target */
};

/* An answer is 16 * value + reason. The value is a count if the reason is TENDERCHOCK_ACCEPTED, else the place of the
 * refusal, a byte offset in the text. */
#define TENDERCHOCK_REASON(answer) ((int)((answer) % 16u))
#define TENDERCHOCK_VALUE(answer) ((uint64_t)(answer) / 16u)

/* Most bytes in a text, and so room enough for any standard text. */
#define TENDERCHOCK_TEXT_LIMIT 65536u
/* Most blocks in a record. */
#define TENDERCHOCK_BLOCK_LIMIT 512u
/* Bytes that suffice for what tenderchock_parse writes: at most 20 numbers before the rows, 3 for a row. */
#define TENDERCHOCK_PARSE_ROOM (8u * (20u + 3u * TENDERCHOCK_BLOCK_LIMIT))
/* Bytes of a tally, of a region of a batch, and of a row of its answers. */
#define TENDERCHOCK_TALLY_SIZE 24u
#define TENDERCHOCK_REGION_SIZE 16u
#define TENDERCHOCK_ROW_SIZE 40u

/* Whether a text of this kind is accepted; counts its blocks. */
uint64_t tenderchock_check(uint64_t kind, const uint8_t *text, size_t text_length);

/* The record of a text and its rows, as numbers; counts the numbers. */
uint64_t tenderchock_parse(uint64_t kind, const uint8_t *text, size_t text_length, uint8_t *out, size_t out_length);

/* The standard text of a text; counts its bytes. */
uint64_t tenderchock_format(uint64_t kind, const uint8_t *text, size_t text_length, uint8_t *out, size_t out_length);

/* The numbers of a text of one line; counts them. */
uint64_t tenderchock_numbers(const uint8_t *text, size_t text_length, uint8_t *out, size_t out_length);

/* Start and end on the other strand of a sequence, as 2 numbers. */
uint64_t tenderchock_convert(uint64_t start, uint64_t end, uint64_t size, uint8_t *out, size_t out_length);

/* Partner and drift of a position through a chain's text, as 2 numbers; a negative drift as its two's complement. */
uint64_t tenderchock_lift_position(const uint8_t *text, size_t text_length, uint64_t position, uint8_t *out,
                                   size_t out_length);

/* Kept, dropped, start and end of the query region, as 4 numbers. */
uint64_t tenderchock_lift_region(const uint8_t *text, size_t text_length, uint64_t start, uint64_t end, uint8_t *out,
                                 size_t out_length);

/* The standard text of the turned chain; counts its bytes. */
uint64_t tenderchock_turn(const uint8_t *text, size_t text_length, uint8_t *out, size_t out_length);

/* One region of a batch; the tally, 3 numbers (asked, kept, dropped), grows in place. Counts the bases kept. */
uint64_t tenderchock_tally(const uint8_t *text, size_t text_length, uint64_t start, uint64_t end, uint8_t *tally,
                           size_t tally_length);

/* Many regions, 2 numbers each (start, end), through one chain's text. Each has a row of 5 numbers in out: 0, kept,
 * dropped, start, end; or the number of its refusal and four zeros. The tally grows in place. Counts the regions. */
uint64_t tenderchock_lift_batch(const uint8_t *text, size_t text_length, const uint8_t *regions,
                                size_t regions_length, uint8_t *tally, size_t tally_length, uint8_t *out,
                                size_t out_length);

/* Number k, from 0, of those that an entry wrote: 8 bytes each, the lowest first. */
static inline uint64_t tenderchock_number(const uint8_t *out, size_t k) {
    uint64_t number = 0;
    for (size_t i = 8; i > 0; i--) {
        number = 256u * number + out[8 * k + i - 1];
    }
    return number;
}

/* Puts a number into place k of those that an entry reads. */
static inline void tenderchock_put_number(uint8_t *in, size_t k, uint64_t number) {
    for (size_t i = 0; i < 8; i++) {
        in[8 * k + i] = (uint8_t)(number >> (8 * i));
    }
}

#ifdef __cplusplus
}
#endif

#endif
