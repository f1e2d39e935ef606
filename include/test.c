/*
 * The test of the header and of the library behind it: numbers, lengths and types, and every call for all eight sides,
 * those that look at the knit on plain cloth and on ribbed, on parts of just the needed length, and of one place less.
 * Beside each part lie guards, which must stay as they are. With an argument there are no guards, so that valgrind sees
 * the first access beside a part. rust/test runs both. So the calls need no more than S 16.2 says, and keep to what
 * they are lent (S 15.16).
 */
#include <stdio.h>
#include <stdlib.h>
#include <string.h>

#include "rulmedei.h"

/* The exact types. The calls below are made through these. */
static uint32_t (*const load)(uint32_t, uint32_t, const uint8_t *, size_t, int64_t *, size_t, uint32_t *, size_t,
                              uint32_t *, size_t, uint32_t *, uint32_t *, uint32_t *) = rulmedei_load;
static uint32_t (*const advance)(uint32_t, uint32_t, uint32_t, uint32_t, int64_t *, size_t, uint32_t *, size_t,
                                 uint32_t *, size_t, uint32_t *, uint32_t *) = rulmedei_advance;
static uint32_t (*const two_heads)(uint32_t, uint32_t, const uint8_t *, size_t, int64_t *, size_t, uint32_t *, size_t,
                                   uint32_t *, size_t, uint32_t *, uint32_t *, uint32_t *, uint32_t *,
                                   int64_t *) = rulmedei_two_heads;
static uint32_t (*const tally)(uint32_t, const uint32_t *, size_t, uint32_t, uint32_t, uint32_t,
                               uint32_t *) = rulmedei_tally;
static uint32_t (*const levels)(uint32_t, const uint8_t *, size_t, const uint32_t *, size_t, uint64_t *,
                                size_t) = rulmedei_levels;
static uint32_t (*const map_text)(const uint8_t *, size_t, uint8_t *, size_t, uint32_t *) = rulmedei_map_text;
static uint32_t (*const lower_text)(const uint8_t *, size_t, uint8_t *, size_t, uint8_t *, size_t,
                                    size_t *) = rulmedei_lower_text;
static uint32_t (*const sketch_quote)(const uint8_t *, size_t, uint32_t, uint8_t *, size_t, uint8_t *, size_t,
                                      uint32_t *, size_t, uint32_t *, uint32_t *, uint32_t *) = rulmedei_sketch_quote;
static uint32_t (*const drill_list)(uint32_t, uint32_t, uint32_t, const int64_t *, size_t, const uint32_t *, size_t,
                                    const uint32_t *, size_t, uint8_t *, size_t, size_t *) = rulmedei_drill_list;
static uint32_t (*const quote_page)(uint32_t, const uint8_t *, size_t, const uint32_t *, size_t, uint32_t, uint8_t *,
                                    size_t, size_t *) = rulmedei_quote_page;
static uint32_t (*const sample)(uint32_t, uint32_t, uint8_t *, size_t, uint32_t *) = rulmedei_sample;
static uint32_t (*const compare)(uint32_t, const uint32_t *, size_t, const uint32_t *, size_t, uint32_t *,
                                 uint32_t *) = rulmedei_compare;
static uint32_t (*const shelf)(uint32_t, uint32_t, const uint32_t *, size_t, uint32_t *, size_t) = rulmedei_shelf;
static uint32_t (*const keep_name)(uint32_t, uint32_t, uint32_t, uint64_t *, uint32_t) = rulmedei_keep;
static uint32_t (*const restore)(uint32_t, uint32_t, uint32_t, const uint64_t *, uint32_t, const uint8_t *, size_t,
                                 int64_t *, size_t, uint32_t *, size_t, uint32_t *, size_t,
                                 uint32_t *) = rulmedei_restore;
static uint32_t (*const relay)(uint32_t, uint32_t, uint32_t, const int64_t *, size_t, const uint32_t *, size_t,
                               const uint32_t *, size_t, int64_t *, size_t) = rulmedei_relay;
static uint32_t (*const renew)(uint32_t, uint32_t, uint32_t, int64_t *, size_t) = rulmedei_renew;
static void (*const lower)(uint8_t *, size_t) = rulmedei_lower;

static unsigned long checks, failures;

#define CHECK(holds) check((holds), #holds, __func__, __LINE__)

static void check(int holds, const char *what, const char *where, int line)
{
    checks++;
    if (holds)
        return;
    failures++;
    if (failures <= 20)
        printf("include/test.c:%d: %s: does not hold: %s\n", line, where, what);
}

static void *memory_of(size_t bytes)
{
    void *memory = malloc(bytes);
    if (memory == NULL) {
        fprintf(stderr, "no memory\n");
        exit(3);
    }
    return memory;
}

/* Parts. */

enum { GUARD = 0xA5, NINE = 9 };

static size_t guard = 64; /* bytes on either side of a part */

/* The places of a part, how many they are, all the memory that they and the guards lie in, and a copy of that. */
struct part {
    void *places;
    size_t count;
    unsigned char *memory, *kept;
    size_t bytes;
};

/* Each byte of a place is 9 at first. */
static struct part part_of(size_t count, size_t size)
{
    struct part part;
    part.count = count;
    part.bytes = guard + count * size + guard;
    part.memory = memory_of(part.bytes);
    part.kept = memory_of(part.bytes);
    part.places = part.memory + guard;
    memset(part.memory, GUARD, part.bytes);
    memset(part.places, NINE, count * size);
    return part;
}

static int all_are(const unsigned char *bytes, size_t count, int value)
{
    for (size_t at = 0; at < count; at++)
        if (bytes[at] != value)
            return 0;
    return 1;
}

static void give_back(struct part *part)
{
    CHECK(all_are(part->memory, guard, GUARD));
    CHECK(all_are(part->memory + part->bytes - guard, guard, GUARD));
    free(part->memory);
    free(part->kept);
}

static void keep(struct part *part)
{
    memcpy(part->kept, part->memory, part->bytes);
}

static int as_kept(const struct part *part)
{
    return memcmp(part->kept, part->memory, part->bytes) == 0;
}

/* A map with the parts of its side, the knit of its cloth, and the holes made so far. */
struct map {
    uint32_t side, power, dots, knit;
    struct part greys, pyramid, serials, order;
};

static struct map map_of(uint32_t side, uint32_t knit)
{
    struct map m = {.side = side, .dots = 0, .power = 0, .knit = knit};
    while (1u << m.power < side)
        m.power++;
    m.greys = part_of(RULMEDEI_CELLS(side), sizeof(uint8_t));
    m.pyramid = part_of(RULMEDEI_PYRAMID(side), sizeof(int64_t));
    m.serials = part_of(RULMEDEI_CELLS(side), sizeof(uint32_t));
    m.order = part_of(RULMEDEI_CELLS(side), sizeof(uint32_t));
    return m;
}

static void give_back_map(struct map *m)
{
    give_back(&m->greys);
    give_back(&m->pyramid);
    give_back(&m->serials);
    give_back(&m->order);
}

static void keep_map(struct map *m)
{
    keep(&m->greys);
    keep(&m->pyramid);
    keep(&m->serials);
    keep(&m->order);
}

static int map_as_kept(const struct map *m)
{
    return as_kept(&m->greys) && as_kept(&m->pyramid) && as_kept(&m->serials) && as_kept(&m->order);
}

/* The place of entry (row, column) of a level in a pyramid by quarters, bit by bit. */
static size_t place_of(uint32_t level, size_t row, size_t column)
{
    size_t place = 0;
    for (uint32_t bit = 0; bit < level; bit++) {
        place += (size_t)1 << 2 * bit;
        place += (column >> bit & 1) << 2 * bit;
        place += (row >> bit & 1) << (2 * bit + 1);
    }
    return place;
}

/* What the pyramid has of a cell. */
static int64_t debt_at(const struct map *m, size_t cell)
{
    const int64_t *pyramid = m->pyramid.places;
    return pyramid[place_of(m->power, cell / m->side, cell % m->side)];
}

static uint64_t sum_of(const struct part *greys)
{
    const uint8_t *places = greys->places;
    uint64_t sum = 0;
    for (size_t cell = 0; cell < greys->count; cell++)
        sum += places[cell];
    return sum;
}

static uint64_t grey_sum(const struct map *m)
{
    return sum_of(&m->greys);
}

/* The calls on a map. */

/* How many places fewer than it has each part is lent. */
struct less {
    size_t greys, pyramid, serials, order;
};

static const struct less whole = {0, 0, 0, 0};
static const struct less less_greys = {1, 0, 0, 0}, less_pyramid = {0, 1, 0, 0};
static const struct less less_serials = {0, 0, 1, 0}, less_order = {0, 0, 0, 1};

/* What the last call wrote beside its parts. */
static uint32_t first, second, third, fourth;
static int64_t fifth;
static size_t length;

static uint32_t load_map(struct map *m, uint32_t side, uint32_t knit, struct less less)
{
    first = second = third = 77;
    return load(side, knit, m->greys.places, m->greys.count - less.greys, m->pyramid.places,
                m->pyramid.count - less.pyramid, m->serials.places, m->serials.count - less.serials, m->order.places,
                m->order.count - less.order, &first, &second, &third);
}

static uint32_t heads_map(struct map *m, uint32_t side, uint32_t knit, struct less less)
{
    first = second = third = fourth = 77;
    fifth = 77;
    return two_heads(side, knit, m->greys.places, m->greys.count - less.greys, m->pyramid.places,
                     m->pyramid.count - less.pyramid, m->serials.places, m->serials.count - less.serials,
                     m->order.places, m->order.count - less.order, &first, &second, &third, &fourth, &fifth);
}

/* The record that a call is given. */
struct record {
    uint32_t side, dots, knit;
};

static struct record record_of(const struct map *m, uint32_t dots)
{
    struct record r = {m->side, dots, m->knit};
    return r;
}

static uint32_t advance_map(struct map *m, struct record r, uint32_t budget, struct less less)
{
    first = second = 77;
    return advance(r.side, r.dots, r.knit, budget, m->pyramid.places, m->pyramid.count - less.pyramid,
                   m->serials.places, m->serials.count - less.serials, m->order.places, m->order.count - less.order,
                   &first, &second);
}

static uint32_t tally_map(struct map *m, uint32_t side, uint32_t level, uint32_t row, uint32_t column, struct less less)
{
    first = 77;
    return tally(side, m->serials.places, m->serials.count - less.serials, level, row, column, &first);
}

static uint32_t levels_map(struct map *m, uint32_t side, struct part *sums, struct less less)
{
    return levels(side, m->greys.places, m->greys.count - less.greys, m->serials.places,
                  m->serials.count - less.serials, sums->places, sums->count);
}

static uint32_t list_map(struct map *m, struct record r, struct part *out, size_t room, struct less less)
{
    length = 77;
    return drill_list(r.side, r.dots, r.knit, m->pyramid.places, m->pyramid.count - less.pyramid, m->serials.places,
                      m->serials.count - less.serials, m->order.places, m->order.count - less.order, out->places, room,
                      &length);
}

static uint32_t page_map(struct map *m, uint32_t side, uint32_t level, struct part *out, size_t room, struct less less)
{
    length = 77;
    return quote_page(side, m->greys.places, m->greys.count - less.greys, m->serials.places,
                      m->serials.count - less.serials, level, out->places, room, &length);
}

static uint32_t restore_map(struct map *m, struct record r, struct part *value, uint32_t name, struct less less)
{
    first = 77;
    return restore(r.side, r.dots, r.knit, value->places, name, m->greys.places, m->greys.count - less.greys,
                   m->pyramid.places, m->pyramid.count - less.pyramid, m->serials.places,
                   m->serials.count - less.serials, m->order.places, m->order.count - less.order, &first);
}

/* The macros (S 16.1). */

static void test_numbers(void)
{
    CHECK(RULMEDEI_DONE == 0);
    CHECK(RULMEDEI_MORE == 100);
    CHECK(RULMEDEI_NOT_RENEWED == 101);
    CHECK(RULMEDEI_BEFORE == 102);
    CHECK(RULMEDEI_BEFORE_AT == 103);
    CHECK(RULMEDEI_SAME == 104);
    CHECK(RULMEDEI_AFTER_AT == 105);
    CHECK(RULMEDEI_AFTER == 106);
    CHECK(RULMEDEI_SIDE_UNKNOWN == 1);
    CHECK(RULMEDEI_GREYS_SHORT == 2);
    CHECK(RULMEDEI_PYRAMID_SHORT == 3);
    CHECK(RULMEDEI_SHEET_SHORT == 4);
    CHECK(RULMEDEI_SHEET_UNSOUND == 5);
    CHECK(RULMEDEI_BLOCK_UNKNOWN == 6);
    CHECK(RULMEDEI_TEXT_MALFORMED == 7);
    CHECK(RULMEDEI_OUTPUT_SHORT == 8);
    CHECK(RULMEDEI_INPUT_LONG == 9);
    CHECK(RULMEDEI_NAME_UNKNOWN == 10);
    CHECK(RULMEDEI_KNIT_UNKNOWN == 11);
    CHECK(RULMEDEI_GREY_HIGH == 12);
    CHECK(RULMEDEI_PAIR_FALLS == 13);
    CHECK(RULMEDEI_SIDE_SMALL == 14);
    CHECK(RULMEDEI_HIGHEST == 240);
    CHECK(RULMEDEI_PLAIN == 0);
    CHECK(RULMEDEI_RIBBED == 1);
}

enum { SIDES = 8, LEVELS = 9, NAMES = 8 };

static const uint32_t sides[SIDES] = {2, 4, 8, 16, 32, 64, 128, 256};

static void test_lengths(void)
{
    static const size_t cells[SIDES] = {4, 16, 64, 256, 1024, 4096, 16384, 65536};
    static const size_t pyramid[SIDES] = {5, 21, 85, 341, 1365, 5461, 21845, 87381};
    static const size_t list[SIDES] = {70, 238, 910, 3598, 14350, 57358, 229390, 917518};
    static const size_t page[LEVELS] = {29, 116, 464, 1856, 7424, 29696, 118784, 475136, 1900544};
    for (int at = 0; at < SIDES; at++) {
        CHECK(RULMEDEI_CELLS(sides[at]) == cells[at]);
        CHECK(RULMEDEI_PYRAMID(sides[at]) == pyramid[at]);
        CHECK(RULMEDEI_LIST(sides[at]) == list[at]);
    }
    for (int level = 0; level < LEVELS; level++)
        CHECK(RULMEDEI_PAGE(level) == page[level]);
}

/* Each call, on the sample of seed 1 of a side, lowered after Sample, one after the other. */

static void test_sample(struct map *m)
{
    uint8_t *greys = m->greys.places;
    uint32_t state = 1, reached = 77;
    int same = 1;
    CHECK(sample(1, m->side, greys, m->greys.count, &reached) == RULMEDEI_DONE);
    for (size_t cell = 0; cell < m->greys.count; cell++) {
        state = 1664525 * state + 1013904223;
        same = same && greys[cell] == state >> 24;
    }
    CHECK(same && reached == state);
    keep_map(m);
    CHECK(sample(2, m->side + 1, greys, m->greys.count, &reached) == RULMEDEI_SIDE_UNKNOWN);
    CHECK(reached == 0 && map_as_kept(m));
    reached = 77;
    CHECK(sample(2, m->side, greys, m->greys.count - 1, &reached) == RULMEDEI_GREYS_SHORT);
    CHECK(reached == 0 && map_as_kept(m));
}

/* The text of a map, in a part that ends with it. */
static struct part text_of(const struct map *m)
{
    const uint8_t *greys = m->greys.places;
    char *text = memory_of(5 + 4 * m->greys.count);
    size_t used = sprintf(text, "%u\n", (unsigned)m->side);
    for (size_t cell = 0; cell < m->greys.count; cell++)
        used += sprintf(text + used, "%u%c", (unsigned)greys[cell], (cell + 1) % m->side == 0 ? '\n' : ',');
    struct part part = part_of(used, 1);
    memcpy(part.places, text, used);
    free(text);
    return part;
}

/* The map with its last grey made 255; only its greys are used. */
static struct map high_map(const struct map *m)
{
    struct map high = map_of(m->side, m->knit);
    memcpy(high.greys.places, m->greys.places, m->greys.count);
    ((uint8_t *)high.greys.places)[m->greys.count - 1] = 255;
    return high;
}

/* Lower Text of a map with a grey of 255: refused for each reason, then done; Map Text refuses the text, and takes what
   was written, which is lowered once more (S 9.2, S 15.10). */
static void test_lower_text(const struct map *m)
{
    struct map high = high_map(m);
    struct part text = text_of(&high), read = part_of(RULMEDEI_CELLS(m->side), 1), out = part_of(text.count, 1);
    const struct {
        size_t text, greys, room;
        uint32_t number;
    } asked[] = {
        {0, 0, 0, RULMEDEI_TEXT_MALFORMED},
        {text.count - 1, read.count - 1, 0, RULMEDEI_GREYS_SHORT},
        {text.count, read.count - 1, out.count, RULMEDEI_GREYS_SHORT},
        {text.count - 1, read.count, out.count - 1, RULMEDEI_TEXT_MALFORMED},
        {text.count, read.count, out.count - 1, RULMEDEI_OUTPUT_SHORT},
        {text.count, read.count, 0, RULMEDEI_OUTPUT_SHORT},
    };
    keep(&text);
    keep(&read);
    keep(&out);
    for (size_t at = 0; at < sizeof asked / sizeof asked[0]; at++) {
        length = 77;
        CHECK(lower_text(text.places, asked[at].text, read.places, asked[at].greys, out.places, asked[at].room, &length)
              == asked[at].number);
        CHECK(length == 0 && as_kept(&text) && as_kept(&read) && as_kept(&out));
    }
    first = 77;
    CHECK(map_text(text.places, text.count, read.places, read.count, &first) == RULMEDEI_GREY_HIGH);
    CHECK(first == 0 && as_kept(&text) && as_kept(&read));
    CHECK(lower_text(text.places, text.count, read.places, read.count, out.places, out.count, &length)
          == RULMEDEI_DONE);
    lower(high.greys.places, high.greys.count);
    struct part low = text_of(&high);
    CHECK(length == text.count && as_kept(&text) && low.count == text.count);
    CHECK(memcmp(read.places, high.greys.places, read.count) == 0 && memcmp(out.places, low.places, low.count) == 0);
    CHECK(map_text(out.places, out.count, read.places, read.count, &first) == RULMEDEI_DONE && first == m->side);
    CHECK(memcmp(read.places, high.greys.places, read.count) == 0);
    keep(&low);
    CHECK(lower_text(low.places, low.count, read.places, read.count, out.places, out.count, &length) == RULMEDEI_DONE);
    CHECK(length == low.count && as_kept(&low) && memcmp(out.places, low.places, low.count) == 0);
    give_back_map(&high);
    give_back(&text);
    give_back(&read);
    give_back(&out);
    give_back(&low);
}

/* Lower of no grey, of all greys but the last, which is 255, and of all; then the map's own greys are lowered
   (S 12.4). */
static void test_lower(struct map *m)
{
    struct map high = high_map(m);
    const uint8_t *greys = m->greys.places, *low = high.greys.places;
    size_t last = m->greys.count - 1;
    int same = 1;
    keep_map(&high);
    lower(high.greys.places, 0);
    CHECK(map_as_kept(&high));
    lower(high.greys.places, last);
    for (size_t cell = 0; cell < last; cell++)
        same = same && low[cell] == (greys[cell] > 240 ? 240 : greys[cell]);
    CHECK(same && low[last] == 255);
    lower(high.greys.places, last + 1);
    CHECK(low[last] == 240);
    lower(m->greys.places, m->greys.count);
    CHECK(memcmp(greys, low, last) == 0 && greys[last] <= 240);
    give_back_map(&high);
}

static void test_map_text(struct map *m)
{
    struct part text = text_of(m), read = part_of(RULMEDEI_CELLS(m->side), 1);
    keep(&text);
    keep(&read);
    first = 77;
    CHECK(map_text(text.places, text.count - 1, read.places, read.count, &first) == RULMEDEI_TEXT_MALFORMED);
    CHECK(first == 0 && as_kept(&text) && as_kept(&read));
    first = 77;
    CHECK(map_text(text.places, text.count, read.places, read.count - 1, &first) == RULMEDEI_GREYS_SHORT);
    CHECK(first == 0 && as_kept(&text) && as_kept(&read));
    CHECK(map_text(text.places, text.count, read.places, read.count, &first) == RULMEDEI_DONE);
    CHECK(first == m->side && as_kept(&text));
    CHECK(memcmp(read.places, m->greys.places, m->greys.count) == 0);
    give_back(&text);
    give_back(&read);
}

/* A sketch around a map: the lows, at most 20 below its greys, and the highs, at most 20 above them; its text; and
   where Sketch Quote puts what it reads, with the caps of a level. */
struct sketch {
    uint32_t side, power, level;
    struct part lows, highs, text, read_lows, read_highs, caps;
};

/* The text of the lows and highs, in a part that ends with it. */
static struct part sketch_text(const struct sketch *s)
{
    const uint8_t *lows = s->lows.places, *highs = s->highs.places;
    char *text = memory_of(5 + 8 * s->lows.count);
    size_t used = sprintf(text, "%u\n", (unsigned)s->side);
    for (size_t cell = 0; cell < s->lows.count; cell++)
        used += sprintf(text + used, "%u,%u%c", (unsigned)lows[cell], (unsigned)highs[cell],
                        (cell + 1) % s->side == 0 ? '\n' : ',');
    struct part part = part_of(used, 1);
    memcpy(part.places, text, used);
    free(text);
    return part;
}

static struct sketch sketch_of(const struct map *m, uint32_t level)
{
    struct sketch s = {.side = m->side, .power = m->power, .level = level};
    const uint8_t *greys = m->greys.places;
    s.lows = part_of(m->greys.count, 1);
    s.highs = part_of(m->greys.count, 1);
    for (size_t cell = 0; cell < m->greys.count; cell++) {
        ((uint8_t *)s.lows.places)[cell] = greys[cell] < 20 ? 0 : greys[cell] - 20;
        ((uint8_t *)s.highs.places)[cell] = greys[cell] > 220 ? 240 : greys[cell] + 20;
    }
    s.text = sketch_text(&s);
    s.read_lows = part_of(m->greys.count, 1);
    s.read_highs = part_of(m->greys.count, 1);
    s.caps = part_of((size_t)1 << 2 * level, sizeof(uint32_t));
    return s;
}

static void give_back_sketch(struct sketch *s)
{
    give_back(&s->lows);
    give_back(&s->highs);
    give_back(&s->text);
    give_back(&s->read_lows);
    give_back(&s->read_highs);
    give_back(&s->caps);
}

/* How many places fewer than there are of text, lows, highs and caps are lent. */
struct less_of_sketch {
    size_t text, lows, highs, caps;
};

static uint32_t quote_sketch(struct sketch *s, const struct part *text, uint32_t level, struct less_of_sketch less)
{
    first = second = third = 77;
    return sketch_quote(text->places, text->count - less.text, level, s->read_lows.places,
                        s->read_lows.count - less.lows, s->read_highs.places, s->read_highs.count - less.highs,
                        s->caps.places, s->caps.count - less.caps, &first, &second, &third);
}

static void refused_sketch(struct sketch *s, struct part *text, uint32_t level, struct less_of_sketch less,
                           uint32_t number)
{
    keep(text);
    keep(&s->read_lows);
    keep(&s->read_highs);
    keep(&s->caps);
    CHECK(quote_sketch(s, text, level, less) == number);
    CHECK(first == 0 && second == 0 && third == 0 && as_kept(text));
    CHECK(as_kept(&s->read_lows) && as_kept(&s->read_highs) && as_kept(&s->caps));
}

/* The first pair, or the last, made another: its number by itself, and what comes before it and behind it. */
static void refused_pair(struct sketch *s, size_t cell, uint8_t low, uint8_t high, uint32_t number)
{
    const struct less_of_sketch all = {0, 0, 0, 0}, no_caps = {0, 0, 0, s->caps.count}, cut = {1, 0, 0, s->caps.count};
    const struct less_of_sketch less_lows = {1, 1, 0, s->caps.count}, less_highs = {1, 0, 1, s->caps.count};
    uint8_t *lows = s->lows.places, *highs = s->highs.places, old_low = lows[cell], old_high = highs[cell];
    lows[cell] = low;
    highs[cell] = high;
    struct part text = sketch_text(s);
    refused_sketch(s, &text, s->level, all, number);
    refused_sketch(s, &text, s->power + 1, no_caps, number);
    refused_sketch(s, &text, s->power + 1, cut, RULMEDEI_TEXT_MALFORMED);
    refused_sketch(s, &text, s->power + 1, less_lows, RULMEDEI_GREYS_SHORT);
    refused_sketch(s, &text, s->power + 1, less_highs, RULMEDEI_GREYS_SHORT);
    lows[cell] = old_low;
    highs[cell] = old_high;
    give_back(&text);
}

static void test_pairs(const struct map *m)
{
    struct sketch s = sketch_of(m, m->power / 2);
    const size_t cells[2] = {0, s.lows.count - 1};
    for (int at = 0; at < 2; at++) {
        refused_pair(&s, cells[at], 0, 241, RULMEDEI_GREY_HIGH);
        refused_pair(&s, cells[at], 241, 0, RULMEDEI_GREY_HIGH);
        refused_pair(&s, cells[at], 240, 239, RULMEDEI_PAIR_FALLS);
    }
    give_back_sketch(&s);
}

static void refused_sketches(struct sketch *s)
{
    const struct less_of_sketch all = {0, 0, 0, 0}, less_caps = {0, 0, 0, 1}, no_caps = {0, 0, 0, s->caps.count};
    const struct less_of_sketch nothing = {s->text.count, s->lows.count, s->highs.count, s->caps.count};
    refused_sketch(s, &s->text, s->power + 1, nothing, RULMEDEI_TEXT_MALFORMED);
    refused_sketch(s, &s->text, s->power + 1, all, RULMEDEI_BLOCK_UNKNOWN);
    refused_sketch(s, &s->text, s->power + 1, no_caps, RULMEDEI_BLOCK_UNKNOWN);
    refused_sketch(s, &s->text, UINT32_MAX, all, RULMEDEI_BLOCK_UNKNOWN);
    refused_sketch(s, &s->text, s->level, less_caps, RULMEDEI_OUTPUT_SHORT);
    refused_sketch(s, &s->text, s->level, no_caps, RULMEDEI_OUTPUT_SHORT);
}

/* The cap of a square with s cells along its side and this grey sum. */
static uint64_t cap_of(uint64_t s, uint64_t sum)
{
    uint64_t cap = (3 * sum + 764 + 1020 * s) / 765;
    return cap > s * s ? s * s : cap;
}

/* Whether the caps are those of the highs, square by square. */
static int caps_are_right(const struct sketch *s)
{
    const uint8_t *highs = s->highs.places;
    const uint32_t *caps = s->caps.places;
    size_t squares = (size_t)1 << s->level, wide = s->side >> s->level;
    for (size_t square = 0; square < s->caps.count; square++) {
        const uint8_t *corner = highs + square / squares * wide * s->side + square % squares * wide;
        uint64_t sum = 0;
        for (size_t cell = 0; cell < wide * wide; cell++)
            sum += corner[cell / wide * s->side + cell % wide];
        if (caps[square] != cap_of(wide, sum))
            return 0;
    }
    return 1;
}

/* Sketch Quote of a sketch around the map: refused for each reason, then done; the map's own text is no sketch
   (S 9.4). */
static void test_sketch(const struct map *m, uint32_t level)
{
    const struct less_of_sketch all = {0, 0, 0, 0};
    struct sketch s = sketch_of(m, level);
    struct part text = text_of(m);
    refused_sketches(&s);
    refused_sketch(&s, &text, level, all, RULMEDEI_TEXT_MALFORMED);
    keep(&s.text);
    CHECK(quote_sketch(&s, &s.text, level, all) == RULMEDEI_DONE && first == m->side && as_kept(&s.text));
    CHECK(second == (2 * sum_of(&s.lows) + 255) / 510 && third == (2 * sum_of(&s.highs) + 255) / 510);
    CHECK(memcmp(s.read_lows.places, s.lows.places, s.lows.count) == 0);
    CHECK(memcmp(s.read_highs.places, s.highs.places, s.highs.count) == 0);
    CHECK(caps_are_right(&s));
    give_back_sketch(&s);
    give_back(&text);
}

static void refused_load(struct map *m, uint32_t side, uint32_t knit, struct less less, uint32_t number)
{
    CHECK(load_map(m, side, knit, less) == number);
    CHECK(first == 0 && second == 0 && third == 0 && map_as_kept(m));
}

/* Numbers that are no knit. The side comes before the knit, and all lengths after it (S 5.2). */
enum { NO_KNITS = 4 };

static const uint32_t no_knits[NO_KNITS] = {2, 3, 256, UINT32_MAX};

static void refused_knits_load(struct map *m)
{
    for (int at = 0; at < NO_KNITS; at++) {
        refused_load(m, m->side, no_knits[at], whole, RULMEDEI_KNIT_UNKNOWN);
        refused_load(m, m->side + 1, no_knits[at], whole, RULMEDEI_SIDE_UNKNOWN);
        refused_load(m, m->side, no_knits[at], less_greys, RULMEDEI_KNIT_UNKNOWN);
        refused_load(m, m->side, no_knits[at], less_pyramid, RULMEDEI_KNIT_UNKNOWN);
        refused_load(m, m->side, no_knits[at], less_serials, RULMEDEI_KNIT_UNKNOWN);
        refused_load(m, m->side, no_knits[at], less_order, RULMEDEI_KNIT_UNKNOWN);
    }
}

/* A grey above 240, the first of the map or the last: after all else (S 7.2). */
static void refused_high_loads(struct map *m)
{
    uint8_t *greys = m->greys.places;
    const size_t places[2] = {0, m->greys.count - 1};
    for (int at = 0; at < 2; at++) {
        uint8_t grey = greys[places[at]];
        greys[places[at]] = 241;
        keep_map(m);
        refused_load(m, m->side, m->knit, whole, RULMEDEI_GREY_HIGH);
        refused_load(m, m->side + 1, m->knit, whole, RULMEDEI_SIDE_UNKNOWN);
        refused_load(m, m->side, 2, whole, RULMEDEI_KNIT_UNKNOWN);
        refused_load(m, m->side, m->knit, less_greys, RULMEDEI_GREYS_SHORT);
        refused_load(m, m->side, m->knit, less_pyramid, RULMEDEI_PYRAMID_SHORT);
        refused_load(m, m->side, m->knit, less_serials, RULMEDEI_SHEET_SHORT);
        refused_load(m, m->side, m->knit, less_order, RULMEDEI_SHEET_SHORT);
        greys[places[at]] = grey;
    }
}

static void test_load(struct map *m)
{
    const uint8_t *greys = m->greys.places;
    const int64_t *pyramid = m->pyramid.places;
    int same = 1;
    refused_high_loads(m);
    keep_map(m);
    refused_load(m, m->side + 1, m->knit, whole, RULMEDEI_SIDE_UNKNOWN);
    refused_load(m, m->side, m->knit, less_greys, RULMEDEI_GREYS_SHORT);
    refused_load(m, m->side, m->knit, less_pyramid, RULMEDEI_PYRAMID_SHORT);
    refused_load(m, m->side, m->knit, less_serials, RULMEDEI_SHEET_SHORT);
    refused_load(m, m->side, m->knit, less_order, RULMEDEI_SHEET_SHORT);
    refused_knits_load(m);
    CHECK(load_map(m, m->side, m->knit, whole) == RULMEDEI_DONE);
    CHECK(first == m->side && second == 0 && third == m->knit && as_kept(&m->greys));
    for (size_t cell = 0; cell < m->greys.count; cell++)
        same = same && debt_at(m, cell) == 256 * (int64_t)greys[cell];
    CHECK(same && pyramid[0] == 256 * (int64_t)grey_sum(m));
    CHECK(all_are(m->serials.places, m->serials.count * sizeof(uint32_t), 0));
    CHECK(all_are(m->order.places, m->order.count * sizeof(uint32_t), 0));
}

/* After one hole: of each refusal one call, and calls with a number that is no knit beside what else is refused. */
static void refused_advances(struct map *m)
{
    const struct {
        uint32_t side, dots, knit;
        struct less less;
        uint32_t number;
    } asked[] = {
        {m->side + 1, 1, m->knit, whole, RULMEDEI_SIDE_UNKNOWN},
        {m->side + 1, 1, 2, whole, RULMEDEI_SIDE_UNKNOWN},
        {m->side, 1, 2, whole, RULMEDEI_KNIT_UNKNOWN},
        {m->side, 1, UINT32_MAX, whole, RULMEDEI_KNIT_UNKNOWN},
        {m->side, 1, 2, less_pyramid, RULMEDEI_KNIT_UNKNOWN},
        {m->side, 1, 2, less_serials, RULMEDEI_KNIT_UNKNOWN},
        {m->side, 1, 2, less_order, RULMEDEI_KNIT_UNKNOWN},
        {m->side, 2, 2, whole, RULMEDEI_KNIT_UNKNOWN},
        {m->side, 1, m->knit, less_pyramid, RULMEDEI_PYRAMID_SHORT},
        {m->side, 1, m->knit, less_serials, RULMEDEI_SHEET_SHORT},
        {m->side, 1, m->knit, less_order, RULMEDEI_SHEET_SHORT},
        {m->side, 2, m->knit, whole, RULMEDEI_SHEET_UNSOUND},
    };
    for (size_t at = 0; at < sizeof asked / sizeof asked[0]; at++) {
        struct record r = {asked[at].side, asked[at].dots, asked[at].knit};
        CHECK(advance_map(m, r, UINT32_MAX, asked[at].less) == asked[at].number);
        CHECK(first == r.dots && second == 0 && map_as_kept(m));
    }
}

/* One hole, refusals, then all others, as many as are told. */
static void test_advance(struct map *m, uint32_t dots)
{
    const int64_t *pyramid = m->pyramid.places;
    const uint32_t *serials = m->serials.places, *order = m->order.places;
    int same = 1;
    CHECK(advance_map(m, record_of(m, 0), 1, whole) == RULMEDEI_MORE);
    CHECK(first == 1 && second == 1);
    keep_map(m);
    refused_advances(m);
    CHECK(advance_map(m, record_of(m, 1), UINT32_MAX, whole) == RULMEDEI_DONE);
    CHECK(first == dots && second == dots - 1 && as_kept(&m->greys));
    m->dots = dots;
    for (uint32_t at = 0; at < dots; at++)
        same = same && order[at] < m->order.count && serials[order[at]] == at + 1;
    CHECK(same && pyramid[0] == 256 * (int64_t)grey_sum(m) - 65280 * (int64_t)dots);
}

static void refused_tally(struct map *m, uint32_t side, const uint32_t *block, struct less less, uint32_t number)
{
    CHECK(tally_map(m, side, block[0], block[1], block[2], less) == number);
    CHECK(first == 0 && map_as_kept(m));
}

static void test_tally(struct map *m)
{
    const uint32_t all[3] = {0, 0, 0}, no_level[3] = {m->power + 1, 0, 0};
    const uint32_t no_row[3] = {m->power, m->side, 0}, no_column[3] = {m->power, 0, m->side};
    const uint32_t *order = m->order.places;
    uint32_t sum = 0;
    keep_map(m);
    CHECK(tally_map(m, m->side, 0, 0, 0, whole) == RULMEDEI_DONE && first == m->dots);
    for (uint32_t quarter = 0; quarter < 4; quarter++) {
        CHECK(tally_map(m, m->side, 1, quarter / 2, quarter % 2, whole) == RULMEDEI_DONE);
        sum += first;
    }
    CHECK(sum == m->dots);
    CHECK(tally_map(m, m->side, m->power, order[0] / m->side, order[0] % m->side, whole) == RULMEDEI_DONE);
    CHECK(first == 1 && map_as_kept(m));
    refused_tally(m, m->side + 1, all, whole, RULMEDEI_SIDE_UNKNOWN);
    refused_tally(m, m->side, all, less_serials, RULMEDEI_SHEET_SHORT);
    refused_tally(m, m->side, no_level, whole, RULMEDEI_BLOCK_UNKNOWN);
    refused_tally(m, m->side, no_row, whole, RULMEDEI_BLOCK_UNKNOWN);
    refused_tally(m, m->side, no_column, whole, RULMEDEI_BLOCK_UNKNOWN);
}

/* The sum over the cells of the square of their error. */
static uint64_t cell_errors(const struct map *m)
{
    const uint8_t *greys = m->greys.places;
    const uint32_t *serials = m->serials.places;
    uint64_t sum = 0;
    for (size_t cell = 0; cell < m->greys.count; cell++) {
        int64_t error = greys[cell] - (serials[cell] != 0 ? 255 : 0);
        sum += (uint64_t)(error * error);
    }
    return sum;
}

static void refused_levels(struct map *m, uint32_t side, struct less less, uint32_t number)
{
    struct part sums = part_of(LEVELS, sizeof(uint64_t));
    CHECK(levels_map(m, side, &sums, less) == number);
    CHECK(all_are(sums.places, LEVELS * sizeof(uint64_t), 0) && map_as_kept(m));
    give_back(&sums);
}

static void test_levels(struct map *m)
{
    struct part nine = part_of(LEVELS, sizeof(uint64_t)), two = part_of(2, sizeof(uint64_t));
    const uint64_t *sums = nine.places;
    int64_t error = (int64_t)grey_sum(m) - 255 * (int64_t)m->dots;
    keep_map(m);
    CHECK(levels_map(m, m->side, &nine, whole) == RULMEDEI_DONE);
    CHECK(sums[0] == (uint64_t)(error * error) && sums[m->power] == cell_errors(m));
    CHECK(all_are((const unsigned char *)(sums + m->power + 1), (8 - m->power) * sizeof(uint64_t), 0));
    CHECK(levels_map(m, m->side, &two, whole) == RULMEDEI_DONE);
    CHECK(memcmp(two.places, sums, 2 * sizeof(uint64_t)) == 0 && map_as_kept(m));
    give_back(&nine);
    give_back(&two);
    refused_levels(m, m->side + 1, whole, RULMEDEI_SIDE_UNKNOWN);
    refused_levels(m, m->side, less_greys, RULMEDEI_GREYS_SHORT);
    refused_levels(m, m->side, less_serials, RULMEDEI_SHEET_SHORT);
}

static void refused_lists(struct map *m, struct part *out)
{
    const struct {
        uint32_t side, dots, knit;
        size_t room;
        struct less less;
        uint32_t number;
    } asked[] = {
        {m->side + 1, m->dots, m->knit, out->count, whole, RULMEDEI_SIDE_UNKNOWN},
        {m->side + 1, m->dots, 2, out->count, whole, RULMEDEI_SIDE_UNKNOWN},
        {m->side, m->dots, 2, out->count, whole, RULMEDEI_KNIT_UNKNOWN},
        {m->side, m->dots, UINT32_MAX, out->count, whole, RULMEDEI_KNIT_UNKNOWN},
        {m->side, m->dots, 2, out->count, less_pyramid, RULMEDEI_KNIT_UNKNOWN},
        {m->side, m->dots, 2, out->count, less_serials, RULMEDEI_KNIT_UNKNOWN},
        {m->side, m->dots, 2, out->count, less_order, RULMEDEI_KNIT_UNKNOWN},
        {m->side, m->dots - 1, 2, out->count, whole, RULMEDEI_KNIT_UNKNOWN},
        {m->side, m->dots, 2, out->count - 1, whole, RULMEDEI_KNIT_UNKNOWN},
        {m->side, m->dots, m->knit, out->count, less_pyramid, RULMEDEI_PYRAMID_SHORT},
        {m->side, m->dots, m->knit, out->count, less_serials, RULMEDEI_SHEET_SHORT},
        {m->side, m->dots, m->knit, out->count, less_order, RULMEDEI_SHEET_SHORT},
        {m->side, m->dots - 1, m->knit, out->count, whole, RULMEDEI_SHEET_UNSOUND},
        {m->side, m->dots, m->knit, out->count - 1, whole, RULMEDEI_OUTPUT_SHORT},
    };
    keep(out);
    for (size_t at = 0; at < sizeof asked / sizeof asked[0]; at++) {
        struct record r = {asked[at].side, asked[at].dots, asked[at].knit};
        CHECK(list_map(m, r, out, asked[at].room, asked[at].less) == asked[at].number);
        CHECK(length == 0 && as_kept(out) && map_as_kept(m));
    }
}

/* The list in a part that is long enough for any of the side, then in one of just its length. */
static void test_list(struct map *m)
{
    struct part longest = part_of(RULMEDEI_LIST(m->side), 1);
    const unsigned char *list = longest.places;
    char line[32];
    size_t lines = 0;
    keep_map(m);
    CHECK(list_map(m, record_of(m, m->dots), &longest, longest.count, whole) == RULMEDEI_DONE);
    CHECK(length <= longest.count && all_are(list + length, longest.count - length, NINE) && map_as_kept(m));
    for (size_t at = 0; at < length; at++)
        lines += list[at] == '\n';
    CHECK(lines == m->dots + 1 && list[length - 1] == '\n');
    CHECK(memcmp(list, line, sprintf(line, "%u,%u\n1,", (unsigned)m->dots, (unsigned)m->side)) == 0);
    struct part out = part_of(length, 1);
    refused_lists(m, &out);
    CHECK(list_map(m, record_of(m, m->dots), &out, out.count, whole) == RULMEDEI_DONE);
    CHECK(length == out.count && memcmp(out.places, list, length) == 0 && map_as_kept(m));
    give_back(&longest);
    give_back(&out);
}

static void refused_pages(struct map *m, uint32_t level, struct part *out)
{
    const struct {
        uint32_t side, level;
        size_t room;
        struct less less;
        uint32_t number;
    } asked[] = {
        {m->side + 1, level, out->count, whole, RULMEDEI_SIDE_UNKNOWN},
        {m->side, level, out->count, less_greys, RULMEDEI_GREYS_SHORT},
        {m->side, level, out->count, less_serials, RULMEDEI_SHEET_SHORT},
        {m->side, m->power + 1, out->count, whole, RULMEDEI_BLOCK_UNKNOWN},
        {m->side, level, out->count - 1, whole, RULMEDEI_OUTPUT_SHORT},
    };
    keep(out);
    for (size_t at = 0; at < sizeof asked / sizeof asked[0]; at++) {
        CHECK(page_map(m, asked[at].side, asked[at].level, out, asked[at].room, asked[at].less) == asked[at].number);
        CHECK(length == 0 && as_kept(out) && map_as_kept(m));
    }
}

/* The first line of a level's page: of level 0, or of the cells. */
static int first_line(const struct map *m, uint32_t level, char *line)
{
    const uint8_t *greys = m->greys.places;
    const uint32_t *serials = m->serials.places;
    uint64_t s = level == 0 ? m->side : 1, sum = level == 0 ? grey_sum(m) : greys[0];
    unsigned dots = level == 0 ? m->dots : serials[0] != 0;
    return sprintf(line, "  0   0 %8u %5u %5u\n", (unsigned)sum, dots, (unsigned)cap_of(s, sum));
}

static void test_page(struct map *m, uint32_t level)
{
    struct part out = part_of(RULMEDEI_PAGE(level), 1);
    char line[64];
    keep_map(m);
    refused_pages(m, level, &out);
    CHECK(page_map(m, m->side, level, &out, out.count, whole) == RULMEDEI_DONE);
    CHECK(length == out.count && map_as_kept(m));
    CHECK(memcmp(out.places, line, first_line(m, level, line)) == 0);
    CHECK(((const char *)out.places)[length - 1] == '\n');
    give_back(&out);
}

/* The answer for two sheets, of each of which so many places fewer are lent than it has. */
static uint32_t compare_parts(uint32_t side, struct part *left, size_t less_left, struct part *right, size_t less_right)
{
    first = second = 77;
    return compare(side, left->places, left->count - less_left, right->places, right->count - less_right, &first,
                   &second);
}

/* Both ways round: the answers, and the same cell beside either (S 11.1, S 16.1). */
static void compares(uint32_t side, struct part *left, struct part *right, const uint32_t *answers, uint32_t row,
                     uint32_t column)
{
    keep(left);
    keep(right);
    CHECK(compare_parts(side, left, 0, right, 0) == answers[0] && first == row && second == column);
    CHECK(compare_parts(side, right, 0, left, 0) == answers[1] && first == row && second == column);
    CHECK(as_kept(left) && as_kept(right));
}

static const uint32_t before[2] = {RULMEDEI_BEFORE, RULMEDEI_AFTER}, same_plate[2] = {RULMEDEI_SAME, RULMEDEI_SAME};
static const uint32_t before_at[2] = {RULMEDEI_BEFORE_AT, RULMEDEI_AFTER_AT};

static void refused_compare(struct part *left, size_t less_left, struct part *right, size_t less_right, uint32_t side,
                            uint32_t number)
{
    CHECK(compare_parts(side, left, less_left, right, less_right) == number);
    CHECK(first == 0 && second == 0 && as_kept(left) && as_kept(right));
}

/* A plate that is burnt as the map is, with other serials. */
static void renumber(const struct map *m, uint32_t *plate)
{
    const uint32_t *serials = m->serials.places;
    for (size_t cell = 0; cell < m->serials.count; cell++)
        plate[cell] = serials[cell] == 0 ? 0 : UINT32_MAX - serials[cell];
}

/* The sheet beside itself, one burnt alike, one with a hole less, one without a hole; then the last two cells alone. */
static void test_compare(struct map *m)
{
    struct part *sheet = &m->serials, plate = part_of(sheet->count, sizeof(uint32_t));
    struct part other = part_of(sheet->count, sizeof(uint32_t));
    uint32_t *serials = plate.places, *others = other.places, *order = m->order.places;
    keep_map(m);
    compares(m->side, sheet, sheet, same_plate, 0, 0);
    renumber(m, serials);
    compares(m->side, &plate, sheet, same_plate, 0, 0);
    refused_compare(sheet, 0, &plate, 0, m->side + 1, RULMEDEI_SIDE_UNKNOWN);
    refused_compare(sheet, 1, &plate, 1, m->side + 1, RULMEDEI_SIDE_UNKNOWN);
    refused_compare(sheet, 1, &plate, 0, m->side, RULMEDEI_SHEET_SHORT);
    refused_compare(sheet, 0, &plate, 1, m->side, RULMEDEI_SHEET_SHORT);
    serials[order[0]] = 0;
    compares(m->side, &plate, sheet, before, 0, 0);
    memset(serials, 0, plate.count * sizeof(uint32_t));
    compares(m->side, &plate, sheet, before, 0, 0);
    memset(others, 0, other.count * sizeof(uint32_t));
    compares(m->side, &plate, &other, same_plate, 0, 0);
    serials[plate.count - 1] = others[other.count - 2] = 1;
    compares(m->side, &plate, &other, before_at, m->side - 1, m->side - 2);
    serials[0] = others[1] = 65536;
    compares(m->side, &other, &plate, before_at, 0, 0);
    CHECK(map_as_kept(m));
    give_back(&plate);
    give_back(&other);
}

static void refused_shelves(uint32_t side, struct part *plates, struct part *list)
{
    const struct {
        uint32_t side, n;
        size_t places, room;
        uint32_t number;
    } asked[] = {
        {side + 1, 3, plates->count, 3, RULMEDEI_SIDE_UNKNOWN},
        {side + 1, UINT32_MAX, 0, 0, RULMEDEI_SIDE_UNKNOWN},
        {side, 3, plates->count - 1, 3, RULMEDEI_SHEET_SHORT},
        {side, 3, plates->count - 1, 2, RULMEDEI_SHEET_SHORT},
        {side, 4, plates->count, 3, RULMEDEI_SHEET_SHORT},
        {side, UINT32_MAX, plates->count, 3, RULMEDEI_SHEET_SHORT},
        /* these plates would have 2^32 places */
        {side, (uint32_t)(((uint64_t)1 << 32) / RULMEDEI_CELLS(side)), 0, 0, RULMEDEI_SHEET_SHORT},
        {side, 3, plates->count, 2, RULMEDEI_OUTPUT_SHORT},
        {side, 1, plates->count, 0, RULMEDEI_OUTPUT_SHORT},
    };
    for (size_t at = 0; at < sizeof asked / sizeof asked[0]; at++) {
        CHECK(shelf(asked[at].side, asked[at].n, plates->places, asked[at].places, list->places, asked[at].room)
              == asked[at].number);
        CHECK(as_kept(plates) && as_kept(list));
    }
}

/* Three plates: the sheet, one without a hole, and one that is burnt as the sheet is (S 11.2). */
static void test_shelf(struct map *m)
{
    size_t cells = m->serials.count;
    struct part plates = part_of(3 * cells, sizeof(uint32_t)), list = part_of(3, sizeof(uint32_t));
    uint32_t *serials = plates.places, *numbers = list.places;
    keep_map(m);
    memcpy(serials, m->serials.places, cells * sizeof(uint32_t));
    memset(serials + cells, 0, cells * sizeof(uint32_t));
    renumber(m, serials + 2 * cells);
    keep(&plates);
    keep(&list);
    refused_shelves(m->side, &plates, &list);
    CHECK(shelf(m->side, 0, serials, 0, numbers, 0) == RULMEDEI_DONE && as_kept(&list));
    CHECK(shelf(m->side, 2, serials, 2 * cells, numbers, 3) == RULMEDEI_DONE);
    CHECK(numbers[0] == 1 && numbers[1] == 0 && all_are((const unsigned char *)(numbers + 2), sizeof(uint32_t), NINE));
    CHECK(shelf(m->side, 3, serials, 3 * cells, numbers, 3) == RULMEDEI_DONE);
    CHECK(numbers[0] == 1 && numbers[1] == 0 && numbers[2] == 2 && as_kept(&plates) && map_as_kept(m));
    give_back(&plates);
    give_back(&list);
}

static struct part no_names(void)
{
    struct part value = part_of(NAMES, sizeof(uint64_t));
    memset(value.places, 0, NAMES * sizeof(uint64_t));
    return value;
}

static void refused_keeps(uint32_t side, struct part *value)
{
    const struct {
        uint32_t side, name, number;
    } asked[] = {
        {side + 1, 1, RULMEDEI_SIDE_UNKNOWN},
        {side + 1, 0, RULMEDEI_SIDE_UNKNOWN},
        {side, 0, RULMEDEI_NAME_UNKNOWN},
        {side, 9, RULMEDEI_NAME_UNKNOWN},
        {side, UINT32_MAX, RULMEDEI_NAME_UNKNOWN},
    };
    keep(value);
    for (size_t at = 0; at < sizeof asked / sizeof asked[0]; at++)
        for (uint32_t knit = 0; knit < 3; knit++) {
            CHECK(keep_name(asked[at].side, 3, knit, value->places, asked[at].name) == asked[at].number);
            CHECK(as_kept(value));
        }
}

/* A return that is refused, and the number. */
struct refused_return {
    uint32_t side, dots, knit, name;
    struct less less;
    uint32_t number;
};

static void refused_returns(struct map *m, struct part *value, const struct refused_return *asked, size_t count)
{
    keep_map(m);
    keep(value);
    for (size_t at = 0; at < count; at++) {
        struct record r = {asked[at].side, asked[at].dots, asked[at].knit};
        CHECK(restore_map(m, r, value, asked[at].name, asked[at].less) == asked[at].number);
        CHECK(first == r.dots && as_kept(value) && map_as_kept(m));
    }
}

/* A grey above 240, the last of the map: before the name, and after all else. The names are those below. */
static void refused_high_restores(struct map *m, struct part *value)
{
    const struct refused_return asked[] = {
        {m->side, m->dots, m->knit, 1, whole, RULMEDEI_GREY_HIGH},
        {m->side, m->dots, m->knit, 8, whole, RULMEDEI_GREY_HIGH},
        {m->side, m->dots, m->knit, 9, whole, RULMEDEI_GREY_HIGH},
        {m->side, m->dots, m->knit, 4, whole, RULMEDEI_GREY_HIGH},
        {m->side, m->dots, m->knit, 2, whole, RULMEDEI_GREY_HIGH},
        {m->side + 1, m->dots, m->knit, 1, whole, RULMEDEI_SIDE_UNKNOWN},
        {m->side, m->dots, 2, 1, whole, RULMEDEI_KNIT_UNKNOWN},
        {m->side, m->dots, m->knit, 1, less_greys, RULMEDEI_GREYS_SHORT},
        {m->side, m->dots, m->knit, 1, less_pyramid, RULMEDEI_PYRAMID_SHORT},
        {m->side, m->dots, m->knit, 1, less_serials, RULMEDEI_SHEET_SHORT},
        {m->side, m->dots, m->knit, 1, less_order, RULMEDEI_SHEET_SHORT},
        {m->side, m->dots - 1, m->knit, 1, whole, RULMEDEI_SHEET_UNSOUND},
    };
    uint8_t *last = (uint8_t *)m->greys.places + m->greys.count - 1, grey = *last;
    *last = 241;
    refused_returns(m, value, asked, sizeof asked / sizeof asked[0]);
    *last = grey;
}

/* Name 1 has no hole, name 8 has all of them, name 2 has one more; name 4 is empty. */
static void refused_restores(struct map *m, struct part *value)
{
    const struct refused_return asked[] = {
        {m->side + 1, m->dots, m->knit, 1, whole, RULMEDEI_SIDE_UNKNOWN},
        {m->side + 1, m->dots, 2, 9, less_greys, RULMEDEI_SIDE_UNKNOWN},
        {m->side, m->dots, 2, 1, whole, RULMEDEI_KNIT_UNKNOWN},
        {m->side, m->dots, UINT32_MAX, 1, whole, RULMEDEI_KNIT_UNKNOWN},
        {m->side, m->dots, 2, 1, less_greys, RULMEDEI_KNIT_UNKNOWN},
        {m->side, m->dots, 2, 1, less_pyramid, RULMEDEI_KNIT_UNKNOWN},
        {m->side, m->dots, 2, 1, less_serials, RULMEDEI_KNIT_UNKNOWN},
        {m->side, m->dots, 2, 1, less_order, RULMEDEI_KNIT_UNKNOWN},
        {m->side, m->dots - 1, 2, 1, whole, RULMEDEI_KNIT_UNKNOWN},
        {m->side, m->dots, 2, 9, whole, RULMEDEI_KNIT_UNKNOWN},
        {m->side, m->dots, m->knit, 1, less_greys, RULMEDEI_GREYS_SHORT},
        {m->side, m->dots - 1, m->knit, 9, less_greys, RULMEDEI_GREYS_SHORT},
        {m->side, m->dots, m->knit, 1, less_pyramid, RULMEDEI_PYRAMID_SHORT},
        {m->side, m->dots - 1, m->knit, 0, less_pyramid, RULMEDEI_PYRAMID_SHORT},
        {m->side, m->dots, m->knit, 1, less_serials, RULMEDEI_SHEET_SHORT},
        {m->side, m->dots - 1, m->knit, 4, less_serials, RULMEDEI_SHEET_SHORT},
        {m->side, m->dots, m->knit, 1, less_order, RULMEDEI_SHEET_SHORT},
        {m->side, m->dots - 1, m->knit, 2, less_order, RULMEDEI_SHEET_SHORT},
        {m->side, m->dots - 1, m->knit, 1, whole, RULMEDEI_SHEET_UNSOUND},
        {m->side, m->dots - 1, m->knit, 9, whole, RULMEDEI_SHEET_UNSOUND},
        {m->side, m->dots, m->knit, 0, whole, RULMEDEI_NAME_UNKNOWN},
        {m->side, m->dots, m->knit, 9, whole, RULMEDEI_NAME_UNKNOWN},
        {m->side, m->dots, m->knit, UINT32_MAX, whole, RULMEDEI_NAME_UNKNOWN},
        {m->side, m->dots, m->knit, 4, whole, RULMEDEI_NAME_UNKNOWN},
        {m->side, m->dots, m->knit, 2, whole, RULMEDEI_NAME_UNKNOWN},
    };
    refused_returns(m, value, asked, sizeof asked / sizeof asked[0]);
}

/* Whether the sheet is the one that Load and Advance make of the same greys on the same knit. */
static int is_stage(const struct map *m, uint32_t dots)
{
    struct map anew = map_of(m->side, m->knit);
    int same;
    memcpy(anew.greys.places, m->greys.places, m->greys.count);
    CHECK(load_map(&anew, m->side, m->knit, whole) == RULMEDEI_DONE);
    CHECK(advance_map(&anew, record_of(m, 0), dots, whole) == RULMEDEI_MORE && first == dots);
    same = memcmp(anew.pyramid.places, m->pyramid.places, m->pyramid.count * sizeof(int64_t)) == 0
           && memcmp(anew.serials.places, m->serials.places, m->serials.count * sizeof(uint32_t)) == 0
           && memcmp(anew.order.places, m->order.places, m->order.count * sizeof(uint32_t)) == 0;
    give_back_map(&anew);
    return same;
}

/* The finished map taken back to no hole, then forwards to one hole, then to its end (S 10.2). */
static void test_stages(struct map *m)
{
    const uint64_t expected[NAMES] = {1, m->dots + 2, (uint64_t)1 << 32, 0, 2, 0, 0, m->dots + 1};
    struct part value = no_names();
    uint64_t *kept = value.places;
    CHECK(keep_name(m->side, 0, m->knit, kept, 1) == RULMEDEI_DONE);
    CHECK(keep_name(m->side, m->dots + 1, 2, kept, 2) == RULMEDEI_DONE);
    CHECK(keep_name(m->side, UINT32_MAX, UINT32_MAX, kept, 3) == RULMEDEI_DONE);
    CHECK(keep_name(m->side, 7, m->knit, kept, 5) == RULMEDEI_DONE);
    CHECK(keep_name(m->side, 1, 1 - m->knit, kept, 5) == RULMEDEI_DONE);
    CHECK(keep_name(m->side, m->dots, m->knit, kept, 8) == RULMEDEI_DONE);
    CHECK(memcmp(kept, expected, sizeof expected) == 0);
    refused_keeps(m->side, &value);
    refused_high_restores(m, &value);
    refused_restores(m, &value);
    CHECK(restore_map(m, record_of(m, m->dots), &value, 1, whole) == RULMEDEI_DONE);
    CHECK(first == 0 && is_stage(m, 0));
    CHECK(restore_map(m, record_of(m, 0), &value, 5, whole) == RULMEDEI_DONE);
    CHECK(first == 1 && is_stage(m, 1));
    CHECK(restore_map(m, record_of(m, 1), &value, 8, whole) == RULMEDEI_DONE);
    CHECK(first == m->dots && map_as_kept(m) && as_kept(&value));
    give_back(&value);
}

/* The same sheet as earlier versions left it: the entries of each level row after row. */
static void lay_rows(const struct map *m, int64_t *rows)
{
    const int64_t *pyramid = m->pyramid.places;
    for (uint32_t level = 0; level <= m->power; level++)
        for (size_t row = 0; row < (size_t)1 << level; row++)
            for (size_t column = 0; column < (size_t)1 << level; column++)
                *rows++ = pyramid[place_of(level, row, column)];
}

static uint32_t relay_map(struct map *m, struct record r, struct part *old, struct less less, struct part *into,
                          size_t room)
{
    return relay(r.side, r.dots, r.knit, old->places, old->count - less.pyramid, m->serials.places,
                 m->serials.count - less.serials, m->order.places, m->order.count - less.order, into->places, room);
}

/* Into a pyramid of one place more than needed. What lies by quarters already is refused, but for side 2 (S 12.2). */
static void test_relay(struct map *m)
{
    const struct {
        uint32_t side, dots, knit;
        struct less less;
        size_t room;
        uint32_t number;
    } asked[] = {
        {m->side + 1, m->dots, 2, less_pyramid, 0, RULMEDEI_SIDE_UNKNOWN},
        {m->side, m->dots, 2, less_pyramid, 0, RULMEDEI_KNIT_UNKNOWN},
        {m->side, m->dots - 1, m->knit, less_pyramid, m->pyramid.count, RULMEDEI_PYRAMID_SHORT},
        {m->side, m->dots - 1, m->knit, less_serials, m->pyramid.count - 1, RULMEDEI_PYRAMID_SHORT},
        {m->side, m->dots - 1, m->knit, less_serials, m->pyramid.count, RULMEDEI_SHEET_SHORT},
        {m->side, m->dots - 1, m->knit, less_order, m->pyramid.count, RULMEDEI_SHEET_SHORT},
        {m->side, m->dots - 1, m->knit, whole, m->pyramid.count, RULMEDEI_SHEET_UNSOUND},
    };
    struct part old = part_of(m->pyramid.count, sizeof(int64_t)), into = part_of(m->pyramid.count + 1, sizeof(int64_t));
    const unsigned char *spare = (unsigned char *)into.places + m->pyramid.count * sizeof(int64_t);
    lay_rows(m, old.places);
    keep_map(m);
    keep(&old);
    keep(&into);
    for (size_t at = 0; at < sizeof asked / sizeof asked[0]; at++) {
        struct record r = {asked[at].side, asked[at].dots, asked[at].knit};
        CHECK(relay_map(m, r, &old, asked[at].less, &into, asked[at].room) == asked[at].number);
        CHECK(as_kept(&old) && as_kept(&into) && map_as_kept(m));
    }
    if (m->side > 2)
        CHECK(relay_map(m, record_of(m, m->dots), &m->pyramid, whole, &into, into.count) == RULMEDEI_SHEET_UNSOUND
              && as_kept(&into));
    CHECK(relay_map(m, record_of(m, m->dots), &old, whole, &into, into.count) == RULMEDEI_DONE);
    CHECK(memcmp(into.places, m->pyramid.places, m->pyramid.count * sizeof(int64_t)) == 0);
    CHECK(all_are(spare, sizeof(int64_t), NINE) && as_kept(&old) && map_as_kept(m));
    give_back(&old);
    give_back(&into);
}

static void not_renewed(struct map *m, uint32_t side, uint32_t row, uint32_t column, size_t less)
{
    CHECK(renew(side, row, column, m->pyramid.places, m->pyramid.count - less) == RULMEDEI_NOT_RENEWED);
    CHECK(map_as_kept(m));
}

/* On sums that are right; then with a wrong top, which alone becomes right; then with an entry beyond 2^40
   (S 12.3). */
static void test_renew(struct map *m)
{
    int64_t *pyramid = m->pyramid.places, *last = pyramid + m->pyramid.count - 1, cell = *last;
    keep_map(m);
    not_renewed(m, m->side + 1, 0, 0, 0);
    not_renewed(m, m->side, m->side, 0, 0);
    not_renewed(m, m->side, 0, m->side, 0);
    not_renewed(m, m->side, 0, 0, 1);
    pyramid[0] += 5;
    CHECK(renew(m->side, m->side - 1, 0, pyramid, m->pyramid.count) == RULMEDEI_DONE && map_as_kept(m));
    *last = ((int64_t)1 << 40) + 1;
    keep_map(m);
    not_renewed(m, m->side, 0, 0, 0);
    *last = cell;
}

/* All greys 240, the darkest map: its holes, and its list. */
static void test_darkest(struct map *m)
{
    memset(m->greys.places, 240, m->greys.count);
    CHECK(load_map(m, m->side, m->knit, whole) == RULMEDEI_DONE);
    CHECK(advance_map(m, record_of(m, 0), UINT32_MAX, whole) == RULMEDEI_DONE);
    CHECK(first == (480 * m->greys.count + 255) / 510 && second == first);
    m->dots = first;
    test_list(m);
}

/* A sheet that was loaded with greys of 255 before they were refused is burnt to its end, under its own total: every
   cell, and the longest list of the side (S 7.5). */
static void test_white(struct map *m)
{
    int64_t *pyramid = m->pyramid.places;
    for (uint32_t level = 0; level <= m->power; level++)
        for (size_t entry = 0; entry < (size_t)1 << 2 * level; entry++)
            *pyramid++ = (int64_t)65280 << 2 * (m->power - level);
    memset(m->serials.places, 0, m->serials.count * sizeof(uint32_t));
    memset(m->order.places, 0, m->order.count * sizeof(uint32_t));
    CHECK(advance_map(m, record_of(m, 0), UINT32_MAX, whole) == RULMEDEI_DONE);
    CHECK(first == m->greys.count && second == first);
    m->dots = first;
    test_list(m);
}

/* Two Heads refused, for reasons that come one before the other; a side below 16 comes behind an unknown one only. */
static void refused_heads(struct map *m)
{
    const uint32_t small = m->side < 16 ? RULMEDEI_SIDE_SMALL : 0;
    const struct {
        uint32_t side, knit;
        struct less less;
        uint32_t number;
    } asked[] = {
        {m->side + 1, 2, less_greys, RULMEDEI_SIDE_UNKNOWN},
        {m->side, 2, less_greys, small ? small : RULMEDEI_KNIT_UNKNOWN},
        {m->side, UINT32_MAX, whole, small ? small : RULMEDEI_KNIT_UNKNOWN},
        {m->side, m->knit, less_greys, small ? small : RULMEDEI_GREYS_SHORT},
        {m->side, m->knit, less_pyramid, small ? small : RULMEDEI_PYRAMID_SHORT},
        {m->side, m->knit, less_serials, small ? small : RULMEDEI_SHEET_SHORT},
        {m->side, m->knit, less_order, small ? small : RULMEDEI_SHEET_SHORT},
        {m->side, m->knit, whole, small ? small : RULMEDEI_GREY_HIGH},
    };
    keep_map(m);
    for (size_t at = 0; at < sizeof asked / sizeof asked[0]; at++) {
        CHECK(heads_map(m, asked[at].side, asked[at].knit, asked[at].less) == asked[at].number);
        CHECK(first == 0 && second == 0 && third == 0 && fourth == 0 && fifth == 0 && map_as_kept(m));
    }
}

/* Two Heads, with the map's last grey made 255, and then as it is, the sample of seed 1, lowered: the holes of
   vectors/two-heads.csv, serials and order, and the list (S 13.5). */
static void test_heads(const struct map *m)
{
    static const uint32_t dots[2][SIDES] = {{0, 0, 0, 127, 521, 2036, 8180, 32762},
                                            {0, 0, 0, 129, 521, 2039, 8184, 32730}};
    struct map heads = high_map(m);
    const int64_t *pyramid = heads.pyramid.places;
    const uint32_t *serials = heads.serials.places, *order = heads.order.places;
    int same = 1;
    refused_heads(&heads);
    memcpy(heads.greys.places, m->greys.places, m->greys.count);
    keep_map(&heads);
    if (m->side < 16) {
        CHECK(heads_map(&heads, m->side, m->knit, whole) == RULMEDEI_SIDE_SMALL && map_as_kept(&heads));
    } else {
        CHECK(heads_map(&heads, m->side, m->knit, whole) == RULMEDEI_DONE && as_kept(&heads.greys));
        CHECK(first == m->side && second == fourth && third == m->knit && fifth == pyramid[0]);
        CHECK(fourth == dots[m->knit][m->power - 1]);
        CHECK(65280 * (int64_t)fourth + fifth == 256 * (int64_t)grey_sum(m));
        heads.dots = fourth;
        for (uint32_t at = 0; at < heads.order.count; at++)
            same = same && (at < heads.dots ? serials[order[at]] == at + 1 : order[at] == 0);
        CHECK(same);
        test_list(&heads);
    }
    give_back_map(&heads);
}

static void test_side(uint32_t side, uint32_t dots)
{
    struct map m = map_of(side, RULMEDEI_PLAIN);
    test_sample(&m);
    test_lower_text(&m);
    test_lower(&m);
    test_map_text(&m);
    test_pairs(&m);
    test_sketch(&m, 0);
    test_sketch(&m, m.power / 2);
    test_sketch(&m, m.power);
    test_heads(&m);
    test_load(&m);
    test_advance(&m, dots);
    test_tally(&m);
    test_levels(&m);
    test_list(&m);
    test_page(&m, 0);
    test_page(&m, m.power);
    test_compare(&m);
    test_shelf(&m);
    test_stages(&m);
    test_relay(&m);
    test_renew(&m);
    test_darkest(&m);
    test_white(&m);
    give_back_map(&m);
}

/* The calls that look at the knit, on ribbed cloth; there are as many holes. */
static void test_ribbed(uint32_t side, uint32_t dots)
{
    struct map m = map_of(side, RULMEDEI_RIBBED);
    CHECK(sample(1, side, m.greys.places, m.greys.count, &first) == RULMEDEI_DONE);
    lower(m.greys.places, m.greys.count);
    test_heads(&m);
    test_load(&m);
    test_advance(&m, dots);
    test_list(&m);
    test_stages(&m);
    test_relay(&m);
    test_darkest(&m);
    test_white(&m);
    give_back_map(&m);
}

/* P3, the map of side 2 with four greys of 128 (S 17.3). */

static const char P3_TEXT[] = "2\n128,128\n128,128\n", P3_LIST[] = "2,2\n1,0,0\n2,1,1\n";
static const char P3_PAGE[] = "  0   0      128     1     1\n  0   1      128     0     1\n"
                              "  1   0      128     0     1\n  1   1      128     1     1\n";

static void test_p3_map(struct map *m)
{
    CHECK(map_text((const uint8_t *)P3_TEXT, sizeof P3_TEXT - 1, m->greys.places, 4, &first) == RULMEDEI_DONE);
    CHECK(first == 2 && all_are(m->greys.places, 4, 128));
    CHECK(load_map(m, 2, m->knit, whole) == RULMEDEI_DONE && first == 2 && second == 0 && third == m->knit);
    CHECK(advance_map(m, record_of(m, 0), 1, whole) == RULMEDEI_MORE && first == 1 && second == 1);
    CHECK(advance_map(m, record_of(m, 1), 1, whole) == RULMEDEI_DONE && first == 2 && second == 1);
    CHECK(tally_map(m, 2, 0, 0, 0, whole) == RULMEDEI_DONE && first == 2);
    CHECK(tally_map(m, 2, 1, 0, 0, whole) == RULMEDEI_DONE && first == 1);
    CHECK(tally_map(m, 2, 1, 0, 1, whole) == RULMEDEI_DONE && first == 0);
}

static void test_p3_outputs(struct map *m)
{
    static const uint64_t expected[LEVELS] = {4, 65026, 0, 0, 0, 0, 0, 0, 0};
    struct part sums = part_of(LEVELS, sizeof(uint64_t));
    struct part list = part_of(sizeof P3_LIST - 1, 1), page = part_of(sizeof P3_PAGE - 1, 1);
    CHECK(levels_map(m, 2, &sums, whole) == RULMEDEI_DONE && memcmp(sums.places, expected, sizeof expected) == 0);
    CHECK(list_map(m, record_of(m, 2), &list, list.count, whole) == RULMEDEI_DONE && length == list.count);
    CHECK(memcmp(list.places, P3_LIST, list.count) == 0);
    CHECK(page_map(m, 2, 1, &page, page.count, whole) == RULMEDEI_DONE && length == page.count);
    CHECK(memcmp(page.places, P3_PAGE, page.count) == 0);
    give_back(&sums);
    give_back(&list);
    give_back(&page);
}

static void test_p3(void)
{
    struct map m = map_of(2, RULMEDEI_PLAIN);
    test_p3_map(&m);
    test_p3_outputs(&m);
    give_back_map(&m);
}

/* The same greys on ribbed cloth: the same holes, and other debts (S 3.5). */
static void test_ribbed_p3(void)
{
    static const int64_t one_hole[5] = {65792, 0, 16512, 16512, 32768}, two_holes[5] = {512, 0, 256, 256, 0};
    struct map m = map_of(2, RULMEDEI_RIBBED);
    test_p3_map(&m);
    test_p3_outputs(&m);
    CHECK(memcmp(m.pyramid.places, two_holes, sizeof two_holes) == 0);
    CHECK(load_map(&m, 2, RULMEDEI_RIBBED, whole) == RULMEDEI_DONE);
    CHECK(advance_map(&m, record_of(&m, 0), 1, whole) == RULMEDEI_MORE && first == 1);
    CHECK(memcmp(m.pyramid.places, one_hole, sizeof one_hole) == 0);
    give_back_map(&m);
}

/* A grey of 128 on ribbed cloth, inside, on a side and in a corner of a map of side 4: the debts of all cells. */
static void test_ribbed_places(void)
{
    static const struct {
        size_t cell;
        int64_t debts[16];
    } asked[] = {
        {5, {0, -8128, 0, 0, -8128, 0, -8128, 0, 0, -8128, 0, 0, 0, 0, 0, 0}},
        {1, {-10837, 0, -10837, 0, 0, -10838, 0, 0, 0, 0, 0, 0, 0, 0, 0, 0}},
        {15, {0, 0, 0, 0, 0, 0, 0, 0, 0, 0, 0, -16256, 0, 0, -16256, 0}},
    };
    struct map m = map_of(4, RULMEDEI_RIBBED);
    for (size_t at = 0; at < sizeof asked / sizeof asked[0]; at++) {
        memset(m.greys.places, 0, m.greys.count);
        ((uint8_t *)m.greys.places)[asked[at].cell] = 128;
        CHECK(load_map(&m, 4, RULMEDEI_RIBBED, whole) == RULMEDEI_DONE);
        CHECK(advance_map(&m, record_of(&m, 0), UINT32_MAX, whole) == RULMEDEI_DONE && first == 1);
        for (size_t cell = 0; cell < 16; cell++)
            CHECK(debt_at(&m, cell) == asked[at].debts[cell]);
    }
    give_back_map(&m);
}

/* The record's knit decides: a first hole on plain cloth, a second as on ribbed, then back to the first of ribbed. */
static void test_other_knit(void)
{
    static const int64_t two_holes[5] = {512, 0, 256, 256, 0}, one_hole[5] = {65792, 0, 16512, 16512, 32768};
    struct map m = map_of(2, RULMEDEI_PLAIN);
    struct part value = no_names();
    memset(m.greys.places, 128, 4);
    CHECK(load_map(&m, 2, RULMEDEI_PLAIN, whole) == RULMEDEI_DONE);
    CHECK(advance_map(&m, record_of(&m, 0), 1, whole) == RULMEDEI_MORE);
    CHECK(keep_name(2, 1, RULMEDEI_PLAIN, value.places, 1) == RULMEDEI_DONE);
    m.knit = RULMEDEI_RIBBED;
    CHECK(advance_map(&m, record_of(&m, 1), 1, whole) == RULMEDEI_DONE && first == 2);
    CHECK(memcmp(m.pyramid.places, two_holes, sizeof two_holes) == 0);
    CHECK(restore_map(&m, record_of(&m, 2), &value, 1, whole) == RULMEDEI_DONE && first == 1);
    CHECK(memcmp(m.pyramid.places, one_hole, sizeof one_hole) == 0);
    give_back_map(&m);
    give_back(&value);
}

/* Further answers for side 2: the sample of seed 0, texts that are refused, one that is lowered, and the renewal of a
   wrong pyramid. */

static void test_small_answers(void)
{
    static const uint8_t greys[4] = {60, 71, 209, 170};
    static const int64_t wrong[5] = {-1, 2, 3, 4, 5}, right[5] = {14, 2, 3, 4, 5};
    static const char high[] = "2\n9,255\n240,241\n", low[] = "2\n9,240\n240,240\n";
    static const uint8_t low_greys[4] = {9, 240, 240, 240};
    uint8_t out[17];
    struct map m = map_of(2, RULMEDEI_PLAIN);
    memset(out, '#', sizeof out);
    CHECK(sample(0, 2, m.greys.places, 4, &first) == RULMEDEI_DONE && first == 2868466484u);
    CHECK(memcmp(m.greys.places, greys, sizeof greys) == 0);
    memcpy(m.pyramid.places, wrong, sizeof wrong);
    CHECK(renew(2, 1, 0, m.pyramid.places, 5) == RULMEDEI_DONE);
    CHECK(memcmp(m.pyramid.places, right, sizeof right) == 0);
    keep_map(&m);
    CHECK(map_text((const uint8_t *)"3\n", 2, m.greys.places, 4, &first) == RULMEDEI_SIDE_UNKNOWN && first == 0);
    first = 77;
    CHECK(map_text((const uint8_t *)"x", 1, m.greys.places, 4, &first) == RULMEDEI_TEXT_MALFORMED && first == 0);
    length = 77;
    CHECK(lower_text((const uint8_t *)"3\n", 2, m.greys.places, 4, out, 0, &length) == RULMEDEI_SIDE_UNKNOWN);
    CHECK(length == 0 && map_as_kept(&m));
    CHECK(lower_text((const uint8_t *)high, 16, m.greys.places, 4, out, 17, &length) == RULMEDEI_DONE && length == 16);
    CHECK(memcmp(m.greys.places, low_greys, 4) == 0 && memcmp(out, low, 16) == 0 && out[16] == '#');
    give_back_map(&m);
}

/* A sketch of side 2 as a whole and one of side 4 by its quarters, with places to spare; and one with no such side. */

static void test_small_sketches(void)
{
    static const struct {
        const char *text;
        uint32_t level, side, least, greatest;
        uint8_t lows[16], highs[16];
        uint32_t caps[4];
    } asked[] = {
        {"2\n10,20,0,240\n128,128,5,6\n", 0, 2, 1, 2, {10, 0, 128, 5}, {20, 240, 128, 6}, {4}},
        {"4\n0,0,0,10,5,20,100,120\n0,0,0,75,60,90,10,240\n0,21,0,21,0,22,0,21\n0,22,0,22,0,21,0,21\n", 1, 4, 1, 3,
         {0, 0, 5, 100, 0, 0, 60, 10}, {0, 10, 20, 120, 0, 75, 90, 240, 21, 21, 22, 21, 22, 22, 21, 21}, {3, 4, 4, 3}},
    };
    for (size_t at = 0; at < sizeof asked / sizeof asked[0]; at++) {
        const uint8_t *text = (const uint8_t *)asked[at].text;
        size_t cells = RULMEDEI_CELLS(asked[at].side), squares = (size_t)1 << 2 * asked[at].level;
        struct part lows = part_of(cells + 1, 1), highs = part_of(cells + 1, 1);
        struct part caps = part_of(squares + 1, sizeof(uint32_t));
        CHECK(sketch_quote(text, strlen(asked[at].text), asked[at].level, lows.places, cells + 1, highs.places,
                           cells + 1, caps.places, squares + 1, &first, &second, &third) == RULMEDEI_DONE);
        CHECK(first == asked[at].side && second == asked[at].least && third == asked[at].greatest);
        CHECK(memcmp(lows.places, asked[at].lows, cells) == 0 && memcmp(highs.places, asked[at].highs, cells) == 0);
        CHECK(memcmp(caps.places, asked[at].caps, squares * sizeof(uint32_t)) == 0);
        CHECK(((uint8_t *)lows.places)[cells] == NINE && ((uint8_t *)highs.places)[cells] == NINE);
        CHECK(all_are((unsigned char *)caps.places + squares * sizeof(uint32_t), sizeof(uint32_t), NINE));
        CHECK(sketch_quote((const uint8_t *)"3\n", 2, UINT32_MAX, lows.places, 0, highs.places, 0, caps.places, 0,
                           &first, &second, &third) == RULMEDEI_SIDE_UNKNOWN);
        CHECK(first == 0 && second == 0 && third == 0);
        give_back(&lows);
        give_back(&highs);
        give_back(&caps);
    }
}

/* Maps of side 16 with a few dark cells, for two heads: the cells in the order of their holes, and the debt. */

static void test_small_heads(void)
{
    static const struct {
        struct {
            uint32_t cell;
            uint8_t grey;
        } dark[5];
        uint32_t holes, order[3];
        int64_t debt;
    } asked[] = {
        /* cells that are inside a macroblock of one offset alone; three rounds go by without a hole */
        {{{39, 238}, {114, 239}, {119, 240}}, 3, {119, 39, 114}, -12288},
        /* one at the edge of the map, equal blocks, equal cells of a block, macroblocks by row */
        {{{3, 128}, {25, 64}, {29, 64}, {145, 64}, {146, 64}}, 3, {3, 25, 145}, -97536},
        /* one on two sides of the rim, of which one is the edge: it keeps its macroblock from burning */
        {{{7, 127}, {34, 100}, {248, 240}}, 1, {248}, 54272},
        /* a macroblock that comes to just half a hole, and one that comes to one less */
        {{{51, 237}, {102, 129}}, 2, {51, 102}, -36864},
        {{{60, 239}, {105, 131}, {195, 229}}, 2, {60, 195}, 22784},
    };
    struct map m = map_of(16, RULMEDEI_PLAIN);
    uint8_t *greys = m.greys.places;
    for (size_t at = 0; at < sizeof asked / sizeof asked[0]; at++) {
        memset(greys, 0, m.greys.count);
        for (size_t dark = 0; dark < 5; dark++)
            if (asked[at].dark[dark].grey > 0)
                greys[asked[at].dark[dark].cell] = asked[at].dark[dark].grey;
        CHECK(heads_map(&m, 16, RULMEDEI_PLAIN, whole) == RULMEDEI_DONE);
        CHECK(first == 16 && second == asked[at].holes && third == RULMEDEI_PLAIN && fourth == asked[at].holes);
        CHECK(fifth == asked[at].debt && memcmp(m.order.places, asked[at].order, sizeof asked[at].order) == 0);
    }
    give_back_map(&m);
}

/* Plates of side 2 compared, and five of them put in order, of which two are burnt alike. */

static void test_small_plates(void)
{
    static const struct {
        uint32_t left[4], right[4];
        const uint32_t *answers;
        uint32_t row, column;
    } pairs[] = {
        {{1, 0, 0, 0}, {0, 0, 1, 2}, before, 0, 0},
        {{0, 0, 1, 0}, {0, 1, 0, 0}, before_at, 0, 1},
        {{0, 0, 0, 3}, {0, 0, 3, 0}, before_at, 1, 0},
        {{1, 0, 0, 2}, {9, 0, 0, UINT32_MAX}, same_plate, 0, 0},
    };
    static const uint32_t five[20] = {1, 0, 0, 0, 0, 5, 0, 0, 3, 0, 0, 0, 0, 0, 0, 0, 1, 2, 0, 0};
    static const uint32_t sorted[5] = {3, 1, 0, 2, 4};
    struct part left = part_of(4, sizeof(uint32_t)), right = part_of(4, sizeof(uint32_t));
    struct part plates = part_of(20, sizeof(uint32_t)), list = part_of(5, sizeof(uint32_t));
    for (size_t at = 0; at < sizeof pairs / sizeof pairs[0]; at++) {
        memcpy(left.places, pairs[at].left, sizeof pairs[at].left);
        memcpy(right.places, pairs[at].right, sizeof pairs[at].right);
        compares(2, &left, &right, pairs[at].answers, pairs[at].row, pairs[at].column);
    }
    memcpy(plates.places, five, sizeof five);
    keep(&plates);
    CHECK(shelf(2, 5, plates.places, 20, list.places, 5) == RULMEDEI_DONE);
    CHECK(memcmp(list.places, sorted, sizeof sorted) == 0 && as_kept(&plates));
    give_back(&left);
    give_back(&right);
    give_back(&plates);
    give_back(&list);
}

/* P3 taken back to its first hole; then, with greys of 0, refused to one hole and taken to none (S 10.2, S 10.3). */

static void test_small_stages(void)
{
    static const int64_t one_hole[5] = {65792, 0, 19763, 19763, 26266}, no_hole[5] = {0, 0, 0, 0, 0};
    static const uint32_t serials[4] = {1, 0, 0, 0};
    struct map m = map_of(2, RULMEDEI_PLAIN);
    struct part value = no_names();
    uint64_t *kept = value.places;
    memset(m.greys.places, 128, 4);
    CHECK(load_map(&m, 2, RULMEDEI_PLAIN, whole) == RULMEDEI_DONE);
    CHECK(advance_map(&m, record_of(&m, 0), 1, whole) == RULMEDEI_MORE);
    CHECK(keep_name(2, 1, RULMEDEI_PLAIN, kept, 6) == RULMEDEI_DONE && kept[5] == 2);
    CHECK(advance_map(&m, record_of(&m, 1), 9, whole) == RULMEDEI_DONE && first == 2);
    CHECK(restore_map(&m, record_of(&m, 2), &value, 6, whole) == RULMEDEI_DONE && first == 1);
    CHECK(memcmp(m.pyramid.places, one_hole, sizeof one_hole) == 0);
    CHECK(memcmp(m.serials.places, serials, sizeof serials) == 0);
    CHECK(all_are(m.order.places, 4 * sizeof(uint32_t), 0));
    memset(m.greys.places, 0, 4);
    CHECK(restore_map(&m, record_of(&m, 1), &value, 6, whole) == RULMEDEI_NAME_UNKNOWN && first == 1);
    CHECK(memcmp(m.pyramid.places, one_hole, sizeof one_hole) == 0);
    kept[5] = 1;
    CHECK(restore_map(&m, record_of(&m, 1), &value, 6, whole) == RULMEDEI_DONE && first == 0);
    CHECK(memcmp(m.pyramid.places, no_hole, sizeof no_hole) == 0);
    CHECK(all_are(m.serials.places, 4 * sizeof(uint32_t), 0));
    give_back_map(&m);
    give_back(&value);
}

int main(int count, char **words)
{
    /* the holes of the sample of seed 1, lowered, from vectors/runs.csv */
    static const uint32_t dots[SIDES] = {2, 8, 30, 128, 519, 2030, 8153, 32606};
    (void)words;
    if (count > 1)
        guard = 0;
    test_numbers();
    test_lengths();
    test_p3();
    test_small_answers();
    test_small_sketches();
    test_small_heads();
    test_small_plates();
    test_small_stages();
    test_ribbed_p3();
    test_ribbed_places();
    test_other_knit();
    for (int at = 0; at < SIDES; at++)
        test_side(sides[at], dots[at]);
    for (int at = 0; at < SIDES; at++)
        test_ribbed(sides[at], dots[at]);
    printf("include/test.c: %lu checks, %lu do not hold, %u guard bytes\n", checks, failures, (unsigned)guard);
    return failures == 0 ? 0 : 1;
}
