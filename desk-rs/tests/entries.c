/* Every entry called by the header, on the bench samples. Prints each answer that is not the right one; the status is
 * their number. */
#include "tenderchock.h"

#include <stdio.h>
#include <string.h>

#define CHAIN_A "chain 100 tA 100 + 10 40 qB 80 - 5 33 7\n10 3 0\n8 0 1\n9\n"
#define TURNED_A "chain 100 qB 80 + 47 75 tA 100 - 60 90 7\n9 1 0\n8 0 3\n10\n"
#define BED_LINE "chr22 1000 5000 cloneA 960 + 1000 5000 0 2 567,488, 0,3512"
#define BED_TEXT "chr22\t1000\t5000\tcloneA\t960\t+\t1000\t5000\t0\t2\t567,488,\t0,3512,\n"
#define TEXT(text) (const uint8_t *)(text), sizeof(text) - 1

static int wrong = 0;
static uint8_t out[TENDERCHOCK_TEXT_LIMIT];

static void is(const char *what, uint64_t given, uint64_t right) {
    if (given != right) {
        printf("%s: %llu, and not %llu\n", what, (unsigned long long)given, (unsigned long long)right);
        wrong++;
    }
}

static void accepted(const char *what, uint64_t answer, uint64_t count) {
    is(what, answer, 16 * count);
    is(what, TENDERCHOCK_VALUE(answer), count);
}

static void refused(const char *what, uint64_t answer, int reason, uint64_t place) {
    is(what, (uint64_t)TENDERCHOCK_REASON(answer), (uint64_t)reason);
    is(what, TENDERCHOCK_VALUE(answer), place);
}

static void numbers(const char *what, const uint8_t *from, size_t count, const uint64_t *right) {
    for (size_t k = 0; k < count; k++) {
        is(what, tenderchock_number(from, k), right[k]);
    }
}

static void written(const char *what, const char *right) {
    is(what, (uint64_t)memcmp(out, right, strlen(right)), 0);
}

static void texts(void) {
    accepted("check", tenderchock_check(TENDERCHOCK_BED, TEXT(BED_LINE)), 2);
    refused("check", tenderchock_check(TENDERCHOCK_BED, TEXT("chr22 1,000 5000")), TENDERCHOCK_NUMBER_MISSPELT, 6);
    refused("check", tenderchock_check(9, TEXT(BED_LINE)), TENDERCHOCK_BAD_WORD, 0);
    accepted("parse", tenderchock_parse(TENDERCHOCK_CHAIN, TEXT(CHAIN_A), out, TENDERCHOCK_PARSE_ROOM), 14 + 3 * 3);
    const uint64_t rows[] = {3, 10, 5, 10, 23, 15, 8, 31, 24, 9};
    numbers("parse", out + 8 * 13, 10, rows);
    refused("parse", tenderchock_parse(TENDERCHOCK_CHAIN, TEXT(CHAIN_A), out, 8), TENDERCHOCK_NO_ROOM,
            sizeof CHAIN_A - 1);
    accepted("format", tenderchock_format(TENDERCHOCK_BED, TEXT(BED_LINE), out, sizeof out), sizeof BED_TEXT - 1);
    written("format", BED_TEXT);
    const uint64_t both[] = {567, 488};
    accepted("numbers", tenderchock_numbers(TEXT("567 488\n"), out, sizeof out), 2);
    numbers("numbers", out, 2, both);
    refused("numbers", tenderchock_numbers(TEXT("567,488"), out, sizeof out), TENDERCHOCK_NUMBER_MISSPELT, 0);
}

static void chains(void) {
    const uint64_t converted[] = {47, 75}, position[] = {74, 64}, region[] = {4, 3, 63, 67};
    accepted("convert", tenderchock_convert(5, 33, 80, out, sizeof out), 2);
    numbers("convert", out, 2, converted);
    refused("convert", tenderchock_convert(33, 5, 80, out, sizeof out), TENDERCHOCK_SPAN_DISAGREES, 0);
    accepted("lift_position", tenderchock_lift_position(TEXT(CHAIN_A), 10, out, sizeof out), 2);
    numbers("lift_position", out, 2, position);
    refused("lift_position", tenderchock_lift_position(TEXT(CHAIN_A), 100, out, sizeof out), TENDERCHOCK_OUTSIDE_TARGET,
            0);
    accepted("lift_region", tenderchock_lift_region(TEXT(CHAIN_A), 18, 25, out, sizeof out), 4);
    numbers("lift_region", out, 4, region);
    accepted("turn", tenderchock_turn(TEXT(CHAIN_A), out, sizeof out), sizeof TURNED_A - 1);
    written("turn", TURNED_A);
}

static void tallies(void) {
    static uint8_t tally[TENDERCHOCK_TALLY_SIZE], again[TENDERCHOCK_TALLY_SIZE], regions[4 * TENDERCHOCK_REGION_SIZE];
    const uint64_t sums[] = {10, 4, 6};
    accepted("tally", tenderchock_tally(TEXT(CHAIN_A), 18, 25, tally, sizeof tally), 4);
    refused("tally", tenderchock_tally(TEXT(CHAIN_A), 20, 23, tally, sizeof tally), TENDERCHOCK_NO_PAIR, 0);
    numbers("tally", tally, 3, sums);
    const uint64_t asked[] = {18, 25, 20, 23, 20, 20, 0, 101};
    for (size_t k = 0; k < 8; k++) {
        tenderchock_put_number(regions, k, asked[k]);
    }
    const uint64_t rows[] = {0, 4, 3, 63, 67, 12, 0, 0, 0, 0, 13, 0, 0, 0, 0, 13, 0, 0, 0, 0};
    accepted("lift_batch",
             tenderchock_lift_batch(TEXT(CHAIN_A), regions, sizeof regions, again, sizeof again, out, sizeof out), 4);
    numbers("lift_batch", out, 4 * TENDERCHOCK_ROW_SIZE / 8, rows);
    numbers("lift_batch", again, 3, sums);
    refused("lift_batch",
            tenderchock_lift_batch(TEXT(CHAIN_A), regions, sizeof regions, again, sizeof again, out,
                                   3 * TENDERCHOCK_ROW_SIZE),
            TENDERCHOCK_NO_ROOM, 0);
}

int main(void) {
    texts();
    chains();
    tallies();
    return wrong;
}
