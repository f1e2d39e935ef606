/*
 * Reads a map text on standard input and prints its drill list, on plain cloth. From the repository's top:
 *
 *     (cd crates/rulmedei && rt lib)
 *     mkdir -p target
 *     gcc -std=c99 -Wall -Wextra -Werror -Iinclude -o target/example \
 *         include/example.c crates/rulmedei/out/librulmedei.a
 *     printf '2\n128,128\n128,128\n' | target/example
 *
 * The exit status is 0 if the whole list was written, 1 if the text was refused, and 3 if reading or writing failed.
 */
#include <stdio.h>

#include "rulmedei.h"

/* for the largest map; its text has a line with the side, then for each grey at most three digits and what ends it */
#define CELLS RULMEDEI_CELLS(256)
#define PYRAMID RULMEDEI_PYRAMID(256)
#define TEXT (4 + 4 * CELLS)
#define LIST RULMEDEI_LIST(256)

enum { WRITTEN = 0, REFUSED = 1, FAILED = 3 };

/* the refusals that the calls give, in the words of rulmedei.h */
static const char *const words[] = {
    [RULMEDEI_SIDE_UNKNOWN] = "the side must be 2, 4, 8, 16, 32, 64, 128 or 256",
    [RULMEDEI_GREYS_SHORT] = "the map has more cells than there is room for: a greys buffer is below N * N",
    [RULMEDEI_PYRAMID_SHORT] = "too little room for the sums: the pyramid is shorter than needed",
    [RULMEDEI_SHEET_SHORT] = "too little room for the holes: serials or order < N * N, shelf < n * N * N",
    [RULMEDEI_SHEET_UNSOUND] = "the sheet is not sound, its parts do not fit: Load and Advance leave none such",
    [RULMEDEI_BLOCK_UNKNOWN] = "the map has no such level, or no such panel: row or column not below 2^level",
    [RULMEDEI_TEXT_MALFORMED] = "the text is not written as a map or sketch must be: it does not fit the grammar",
    [RULMEDEI_OUTPUT_SHORT] = "too little room for the output: its text, a list of n, or 4^level caps",
    [RULMEDEI_NAME_UNKNOWN] = "no such name, or no such stage: not 1 to 8; on return empty, or past the total",
    [RULMEDEI_KNIT_UNKNOWN] = "the cloth must be plain or ribbed: the knit is neither 0 nor 1",
    [RULMEDEI_GREY_HIGH] = "a grey is above 240, the darkest that a map or a sketch may have",
    [RULMEDEI_PAIR_FALLS] = "a cell of the sketch has its low above its high",
    [RULMEDEI_SIDE_SMALL] = "the side is below 16, too small for two heads",
};

/* one byte more than the longest text, so that a longer one is seen to be none */
static uint8_t text[TEXT + 1];
static uint8_t greys[CELLS];
static int64_t pyramid[PYRAMID];
static uint32_t serials[CELLS];
static uint32_t order[CELLS];
static uint8_t list[LIST];

/* the record, which goes from call to call */
static uint32_t side, dots, knit;

static uint32_t load_text(size_t text_length)
{
    uint32_t read = 0;
    uint32_t code = rulmedei_map_text(text, text_length, greys, CELLS, &read);
    if (code != RULMEDEI_DONE)
        return code;
    return rulmedei_load(read, RULMEDEI_PLAIN, greys, CELLS, pyramid, PYRAMID, serials, CELLS, order, CELLS, &side,
                         &dots, &knit);
}

/* a thousand holes at a time */
static uint32_t run(void)
{
    uint32_t code = RULMEDEI_MORE;
    while (code == RULMEDEI_MORE) {
        uint32_t after = 0, made = 0;
        code = rulmedei_advance(side, dots, knit, 1000, pyramid, PYRAMID, serials, CELLS, order, CELLS, &after, &made);
        dots = after;
    }
    return code;
}

/* the list of the text, whole */
static uint32_t list_of(size_t text_length, size_t *length)
{
    uint32_t code = load_text(text_length);
    if (code == RULMEDEI_DONE)
        code = run();
    if (code == RULMEDEI_DONE)
        code = rulmedei_drill_list(side, dots, knit, pyramid, PYRAMID, serials, CELLS, order, CELLS, list, LIST,
                                   length);
    return code;
}

/* a full disk may show only when standard output is flushed, or closed */
static int print_list(size_t length)
{
    size_t written = fwrite(list, 1, length, stdout);
    int closed = fclose(stdout) == 0;
    return written == length && closed;
}

int main(void)
{
    size_t text_length = fread(text, 1, sizeof text, stdin), length = 0;
    if (ferror(stdin)) {
        fprintf(stderr, "the text could not be read\n");
        return FAILED;
    }
    uint32_t code = list_of(text_length, &length);
    if (code != RULMEDEI_DONE) {
        fprintf(stderr, "refused, %u: %s\n", (unsigned)code, words[code]);
        return REFUSED;
    }
    if (!print_list(length)) {
        fprintf(stderr, "the list could not be written\n");
        return FAILED;
    }
    return WRITTEN;
}
