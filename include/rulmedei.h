/*
 * Rulmedei: grey maps to ordered lists of holes. The sixteen calls for C, the renewal of sums by itself, and the
 * lowering of greys.
 *
 * `rt lib` in crates/rulmedei writes crates/rulmedei/out/librulmedei.a, for x86-64 Linux. It needs the C library and
 * nothing else.
 *
 * What a caller must ensure. The proofs assume it, and nothing tests it at run time:
 *
 * - Every pointer is valid for its length: for that many elements of its type, or for one where no length follows it,
 *   and for eight if it is `kept`. It is aligned for its type, and it is not null, even where the length is 0.
 * - Every element lent is initialised, also one that is only written.
 * - No part that a call may write (a pointer without const) overlaps another part of the same call, written or read.
 * - During a call nothing else writes what is lent, and nothing else reads a part that the call may write.
 * - All parts lent to a call take fewer than 2^63 bytes together.
 *
 * Nothing else is asked. Numbers may have any value, parts any length and buffers any contents: what does not fit is
 * refused, and by rulmedei_renew left alone. A call keeps no pointer and has no state of its own, so calls on different
 * buffers may run at the same time.
 *
 * A slice is two arguments: a pointer to its first element, then the number of its elements.
 */
#ifndef RULMEDEI_H
#define RULMEDEI_H

#include <stddef.h>
#include <stdint.h>

#ifdef __cplusplus
extern "C" {
#endif

/*
 * What a call returns: RULMEDEI_DONE, for rulmedei_advance also RULMEDEI_MORE, or the number of a refusal; for
 * rulmedei_compare in place of RULMEDEI_DONE one of the five from RULMEDEI_BEFORE to RULMEDEI_AFTER. A refused call
 * leaves pyramid, serials, order, greys, lows, highs, caps, out, list, kept and second as they were. Below, each call
 * has its refusals in the order in which it looks for them, and of several the first is told. That is by rising number,
 * but for 11, which comes directly after 1, 14, which comes between these two, and 12, which in rulmedei_restore comes
 * before 10; rulmedei_map_text, rulmedei_lower_text and rulmedei_sketch_quote have an order of their own.
 * rulmedei_renew and rulmedei_lower, which are none of the sixteen calls, have no refusal numbers: the one returns
 * RULMEDEI_DONE or RULMEDEI_NOT_RENEWED, the other nothing.
 */
#define RULMEDEI_DONE 0
#define RULMEDEI_MORE 100         /* rulmedei_advance: further holes are due */
#define RULMEDEI_NOT_RENEWED 101  /* rulmedei_renew: outside what it promises; nothing was changed */
#define RULMEDEI_BEFORE 102       /* rulmedei_compare: left has fewer holes */
#define RULMEDEI_BEFORE_AT 103    /* rulmedei_compare: as many holes, left is unburnt at the cell (row, column) */
#define RULMEDEI_SAME 104         /* rulmedei_compare: the same cells are burnt */
#define RULMEDEI_AFTER_AT 105     /* rulmedei_compare: as many holes, right is unburnt at the cell (row, column) */
#define RULMEDEI_AFTER 106        /* rulmedei_compare: right has fewer holes */
#define RULMEDEI_SIDE_UNKNOWN 1   /* the side must be 2, 4, 8, 16, 32, 64, 128 or 256 */
#define RULMEDEI_GREYS_SHORT 2    /* the map has more cells than there is room for: a greys buffer is below N * N */
#define RULMEDEI_PYRAMID_SHORT 3  /* too little room for the sums: the pyramid is shorter than needed */
#define RULMEDEI_SHEET_SHORT 4    /* too little room for the holes: serials or order < N * N, shelf < n * N * N */
#define RULMEDEI_SHEET_UNSOUND 5  /* the sheet is not sound, its parts do not fit: Load and Advance leave none such */
#define RULMEDEI_BLOCK_UNKNOWN 6  /* the map has no such level, or no such panel: row or column not below 2^level */
#define RULMEDEI_TEXT_MALFORMED 7 /* the text is not written as a map or sketch must be: it does not fit the grammar */
#define RULMEDEI_OUTPUT_SHORT 8   /* too little room for the output: its text, a list of n, or 4^level caps */
#define RULMEDEI_INPUT_LONG 9     /* the input is longer than 4,099 bytes: plate and two_heads, none of the calls */
#define RULMEDEI_NAME_UNKNOWN 10  /* no such name, or no such stage: not 1 to 8; on return empty, or past the total */
#define RULMEDEI_KNIT_UNKNOWN 11  /* the cloth must be plain or ribbed: the knit is neither 0 nor 1 */
#define RULMEDEI_GREY_HIGH 12     /* a grey is above 240, the darkest that a map or a sketch may have */
#define RULMEDEI_PAIR_FALLS 13    /* a cell of the sketch has its low above its high */
#define RULMEDEI_SIDE_SMALL 14    /* the side is below 16, too small for two heads */

/*
 * The highest grey that a map may have, or a sketch. rulmedei_map_text, rulmedei_load, rulmedei_two_heads,
 * rulmedei_restore and rulmedei_sketch_quote refuse a higher one.
 * rulmedei_lower_text turns a text that was stored before into one that passes, and rulmedei_lower lowers greys.
 */
#define RULMEDEI_HIGHEST 240

/*
 * The knits of the cloth. A hole is mostly more than its cell asks for, and the rest is taken from the cells around it:
 * on plain cloth from all of them, from those above, below and beside it twice as much as from those at its corners; on
 * ribbed cloth from those above, below and beside it alone, from each as much. A part is a whole number, less than one
 * off.
 */
#define RULMEDEI_PLAIN 0
#define RULMEDEI_RIBBED 1

/*
 * The record of a sheet is three numbers, always in this order: its side, its holes (dots) and its knit. Load or Two
 * Heads makes it, and it goes on from call to call.
 */

/*
 * The lengths that a map of side N needs, in elements: N * N for greys, lows, highs, serials and order, and
 * (4 * N * N - 1) / 3 for the pyramid. A shelf of n plates needs n * N * N, and the caps of a level 4^level. A longer
 * buffer will do: its further elements play no part, and stay.
 *
 *     N               2    4    8    16    32    64    128    256
 *     cells           4   16   64   256  1024  4096  16384  65536
 *     pyramid         5   21   85   341  1365  5461  21845  87381
 */
#define RULMEDEI_CELLS(n) ((size_t)(n) * (size_t)(n))
#define RULMEDEI_PYRAMID(n) ((4 * (size_t)(n) * (size_t)(n) - 1) / 3)

/*
 * The pyramid: its level k has 2^k rows of 2^k entries. The last level, of N rows, belongs to the cells; each entry of
 * a level before it is the sum of four of the next. Level k begins at place (4^k - 1) / 3. Within it the entries lie
 * by quarters: bit 2 i of the place is bit i of the entry's column, and bit 2 i + 1 is bit i of its row. So the four
 * entries below the one at place i of the pyramid are at the places 4 i + 1 to 4 i + 4. These are the places of the
 * cells of a map of side 4, row by row:
 *
 *      5   6   9  10
 *      7   8  11  12
 *     13  14  17  18
 *     15  16  19  20
 *
 * Earlier versions had the entries of a level row after row. Such a sheet is refused with 5, unless its entries happen
 * to fit; rulmedei_relay writes it anew.
 */

/*
 * The lengths of outputs, in bytes: what the page of a level needs, for the levels 0 to 8 that maps have, and what is
 * enough for every drill list of a map of side N, whose lines have at most 14 bytes each.
 */
#define RULMEDEI_PAGE(level) ((size_t)29 << (2 * (level)))
#define RULMEDEI_LIST(n) (14 * (RULMEDEI_CELLS(n) + 1))

/*
 * Load: fills the pyramid from the greys (by row, then column) and sets the cells of serials and order to 0; the knit
 * plays no part in this. The record is written to progress_side, progress_dots and progress_knit: the side, 0 holes and
 * the knit, or 0, 0 and 0 where it refuses. Refusals: 1, 11, 2, 3, 4, 12 (for the N * N greys of the map; those past
 * them are not looked at).
 */
uint32_t rulmedei_load(uint32_t side,
                       uint32_t knit,
                       const uint8_t *greys, size_t greys_length,
                       int64_t *pyramid, size_t pyramid_length,
                       uint32_t *serials, size_t serials_length,
                       uint32_t *order, size_t order_length,
                       uint32_t *progress_side,
                       uint32_t *progress_dots,
                       uint32_t *progress_knit);

/*
 * Advance: makes the holes that are due, at most `budget` of them, from the record (side, dots, knit) that the call
 * before returned, on the same buffers. The holes so far are written to after and those of this call to made; the side
 * and the knit stay. RULMEDEI_DONE says that none are due any more. A refused call writes `dots` and 0.
 * Refusals: 1, 11, 3, 4, 5.
 *
 * A hole goes down from the whole map to the quarter that asks for most, again and again. Of equal quarters the
 * first by row then column is taken for an odd serial, and the last for an even one. What a hole is worth beyond
 * its cell's need goes to the neighbours on the map by their weights, in sums rounded down: over those at the corners
 * by row then column, then up, left, right and down. A sheet made by an earlier rule for either goes on by these.
 *
 * Every call tests the whole sheet first, which takes as long as a thousand holes or more at side 256. So ask for many
 * holes in one call and take them from the order list one by one, rather than for one hole a call.
 */
uint32_t rulmedei_advance(uint32_t side,
                          uint32_t dots,
                          uint32_t knit,
                          uint32_t budget,
                          int64_t *pyramid, size_t pyramid_length,
                          uint32_t *serials, size_t serials_length,
                          uint32_t *order, size_t order_length,
                          uint32_t *after,
                          uint32_t *made);

/*
 * Two Heads: fills the buffers as Load does and makes all holes at once, for a laser that burns with two heads. It cuts
 * the map into macroblocks of 8 by 8 cells, in rounds: the first macroblock begins at (0, 0), in the next round at
 * (0, 4), then at (4, 0), then at (4, 4), by row and column, and so on in turn; those that would leave the map are left
 * out. In its round a macroblock that asks for half a hole or more, 32,640, goes to that one of its four blocks of 4 by
 * 4 cells that asks for most, and from there down to a cell, of equals always to the first by row then column. This
 * cell is burnt, and the rest spread, as by Advance; unless it lies on a side of the macroblock's rim that is not an
 * edge of the map, when the macroblock burns nothing in this round. Once four rounds on end have burnt nothing all is
 * done. The holes of a round have their serials by macroblock, by row then column. Their cells, and the pyramid, are
 * the same in whatever order its macroblocks are worked.
 *
 * The record, with the side, all holes and the knit, is written to progress_side, progress_dots and progress_knit; the
 * holes are written to made too, and what the map still asks for, the first entry of the pyramid, to debt. It may end
 * above 0 or below it: 65,280 * holes + debt is 256 * G, where G is the sum of the map's greys. What is said of the
 * number of holes, of caps and of floors is said of Load and Advance, and does not hold here. Five zeros where it
 * refuses. Refusals: 1, 14, 11, 2, 3, 4, 12 (as by Load, for the N * N greys of the map).
 */
uint32_t rulmedei_two_heads(uint32_t side,
                            uint32_t knit,
                            const uint8_t *greys, size_t greys_length,
                            int64_t *pyramid, size_t pyramid_length,
                            uint32_t *serials, size_t serials_length,
                            uint32_t *order, size_t order_length,
                            uint32_t *progress_side,
                            uint32_t *progress_dots,
                            uint32_t *progress_knit,
                            uint32_t *made,
                            int64_t *debt);

/*
 * Tally: writes to dots how many holes the aligned square (row, column) of a level has; level 0 is the whole map, and
 * level k has 2^k by 2^k squares. A refused call writes 0. Refusals: 1, 4, 6.
 */
uint32_t rulmedei_tally(uint32_t side,
                        const uint32_t *serials, size_t serials_length,
                        uint32_t level,
                        uint32_t row,
                        uint32_t column,
                        uint32_t *dots);

/*
 * Levels: for each level, level 0 first, the sum over its squares of the square of their summed errors. The nine sums,
 * 0 past the map's last level, are written to the first nine places of sums, or as many as there are; nine zeros where
 * it refuses. Refusals: 1, 2, 4.
 */
uint32_t rulmedei_levels(uint32_t side,
                         const uint8_t *greys, size_t greys_length,
                         const uint32_t *serials, size_t serials_length,
                         uint64_t *sums, size_t sums_length);

/*
 * Map Text: reads the text of a map, a line with the side and then a line of greys, parted by commas, for each row. The
 * greys are written by row and the side to side, 0 where it refuses. Refusals, in this order: 7 for the first line, 1,
 * 2, 7 for the rest, which a grey above 255 is too, 12.
 */
uint32_t rulmedei_map_text(const uint8_t *text, size_t text_length,
                           uint8_t *greys, size_t greys_length,
                           uint32_t *side);

/*
 * Lower Text: reads a stored text by the grammar of Map Text, whose greys may be up to 255, lowers each grey above 240
 * to 240, and writes the text of the result to out, which rulmedei_map_text takes; the lowered greys are written by
 * row. The number of bytes is written to length, 0 where it refuses. They are as many as the text has that was read,
 * and a text without a grey above 240 is copied. Bytes past the text stay, and so do greys past N * N. No zero byte
 * ends the text. Refusals, in this order: 7 for the first line, 1, 2, 7 for the rest, 8.
 */
uint32_t rulmedei_lower_text(const uint8_t *text, size_t text_length,
                             uint8_t *greys, size_t greys_length,
                             uint8_t *out, size_t out_length,
                             size_t *length);

/*
 * Sketch Quote: what can be said of a map of which for each cell only a low and a high are known, the lowest grey and
 * the highest one that it may have. Reads a sketch: a line with the side and then for each row a line of pairs, one for
 * each cell, each a low, a comma and a high, and with commas between them too; otherwise it is as a map text.
 *
 * The lows and the highs are written by row, and to caps for each aligned square of the level, by row then column, its
 * greatest cap, which is that of rulmedei_quote_page for the square's highs. Greys past N * N stay, and so do caps past
 * 4^level. The side is written to side, and to least and greatest (2 * G + 255) / 510, rounded down, where G is the sum
 * of the lows, or of the highs; 0, 0 and 0 where it refuses.
 *
 * Each map whose greys are between the lows and the highs, ends included, has at least `least` holes when it is
 * finished and at most `greatest`; the lows themselves come to the one and the highs to the other. At no time has one
 * of its squares more holes than its cap. All this is so on either knit.
 *
 * Refusals, in this order: 7 for the first line, 1, 2 (for either greys buffer), 7 for the rest, 12 (for a low or a
 * high), 13, 6 (for the level), 8 (for caps with fewer than 4^level places).
 */
uint32_t rulmedei_sketch_quote(const uint8_t *text, size_t text_length,
                               uint32_t level,
                               uint8_t *lows, size_t lows_length,
                               uint8_t *highs, size_t highs_length,
                               uint32_t *caps, size_t caps_length,
                               uint32_t *side,
                               uint32_t *least,
                               uint32_t *greatest);

/*
 * Drill List: writes the number of holes and the side on a first line, and then the serial, row and column of each
 * hole, a line for each as they were made; commas part the numbers. The number of bytes is written to length, 0 where
 * it refuses. Bytes past the list stay. No zero byte ends it. The list is the same for either knit.
 * Refusals: 1, 11, 3, 4, 5, 8.
 */
uint32_t rulmedei_drill_list(uint32_t side,
                             uint32_t dots,
                             uint32_t knit,
                             const int64_t *pyramid, size_t pyramid_length,
                             const uint32_t *serials, size_t serials_length,
                             const uint32_t *order, size_t order_length,
                             uint8_t *out, size_t out_length,
                             size_t *length);

/*
 * Quote Page: writes a line for each aligned square of a level, by row then column, and the number of bytes to length,
 * 0 where it refuses. A line has the square's row (3 wide), column (3), grey sum (8), holes (5) and cap (5), right
 * aligned, with one space between; with its end it has 29 bytes, and the page 29 * 4^level. Bytes past the page stay.
 * No zero byte ends it. Refusals: 1, 2, 4, 6, 8.
 *
 * The cap of a square with s cells along its side is (3 * grey sum + 764 + 1020 * s) / 765, rounded down, and at most
 * s * s. The holes are at most the cap where Load and Advance made the serials from these greys; any other serials may
 * be lent too.
 */
uint32_t rulmedei_quote_page(uint32_t side,
                             const uint8_t *greys, size_t greys_length,
                             const uint32_t *serials, size_t serials_length,
                             uint32_t level,
                             uint8_t *out, size_t out_length,
                             size_t *length);

/*
 * Sample: fills the greys, by row, from a seed. The state is the seed at first; for each grey it becomes
 * (1664525 * state + 1013904223) modulo 2^32, and the grey is the new state divided by 2^24, rounded down. The state
 * reached is written to state, 0 where it refuses. A further call with the state reached as its seed goes on where this
 * one ended. Greys past N * N stay. The greys go up to 255, so whoever loads a sample lowers it first (rulmedei_lower).
 * Refusals: 1, 2.
 */
uint32_t rulmedei_sample(uint32_t seed,
                         uint32_t side,
                         uint8_t *greys, size_t greys_length,
                         uint32_t *state);

/*
 * Compare: how the plate on the left stands to the one on the right. A plate is a serial sheet, of which only the burnt
 * cells count, those whose serial is not 0: neither the serials themselves nor whether a sheet is sound plays a part.
 *
 * A plate with fewer holes comes before one with more. If both have as many, the first cell by row, then column, that
 * is burnt on one of them alone decides: the other one comes before. That cell is written to row and column; with
 * every other answer, and where it refuses, 0 and 0 are.
 *
 * This is an order: two plates compare in just one way; with left and right exchanged before becomes after, after
 * becomes before and the cell stays; and what is before a plate is before everything that this plate is before. Both
 * sheets are only read, so they may overlap, or be one and the same. Refusals: 1, 4 (for either sheet).
 */
uint32_t rulmedei_compare(uint32_t side,
                          const uint32_t *left, size_t left_length,
                          const uint32_t *right, size_t right_length,
                          uint32_t *row,
                          uint32_t *column);

/*
 * Shelf: puts n plates in the order of rulmedei_compare. They lie one after the other in plates, N * N serials each,
 * and are not moved. Their numbers, 0 to n - 1, are written to the first n places of list, that of the foremost plate
 * first; of plates that are the same, the lower number comes first. Further places of list stay. A shelf without a
 * plate (n is 0) will do. Two plates are compared at most n * (1 + log2 n) times.
 * Refusals: 1, 4 (for plates shorter than n * N * N), 8 (for a list with fewer than n places).
 */
uint32_t rulmedei_shelf(uint32_t side,
                        uint32_t n,
                        const uint32_t *plates, size_t plates_length,
                        uint32_t *list, size_t list_length);

/*
 * Keep: writes down under a name, 1 to 8, how many holes the record (side, dots, knit) has. The counts of the eight
 * names stand in kept, which the caller holds beside the sheet: at place i is that of name i + 1, 0 while the name is
 * empty, and else 1 more than its holes, which may be 0. At first all eight places are 0. Only the name's place becomes
 * another, whatever was there. Neither a sheet nor the knit is looked at: dots and knit may be any numbers, and so may
 * each place of kept. Refusals: 1, 10.
 */
uint32_t rulmedei_keep(uint32_t side,
                       uint32_t dots,
                       uint32_t knit,
                       uint64_t kept[8],
                       uint32_t name);

/*
 * Restore, the return to a name: makes pyramid, serials and order what Load makes of the greys, and then Advance with
 * the name's count of holes as its budget, on the knit given. These holes are written to after; the side and the knit
 * stay. A refused call writes `dots`.
 *
 * With the greys and the knit that were loaded this is the sheet on which the name was kept, if only Advance, and
 * Restore with these greys, have written to it since the load, all with that knit. The counts all stay, so that one can
 * go back, and to a later stage forwards again. Other greys will do as well, and the other knit: the sheet is then
 * theirs.
 *
 * Refusals: 1, 11, 2, 3, 4, 5 (though the sheet is then made anew), 12 (for the N * N greys), 10 (no name from 1 to 8,
 * an empty one, or more holes than the map's total, (2 * G + 255) / 510 rounded down, where G is the sum of the N * N
 * greys).
 */
uint32_t rulmedei_restore(uint32_t side,
                          uint32_t dots,
                          uint32_t knit,
                          const uint64_t kept[8],
                          uint32_t name,
                          const uint8_t *greys, size_t greys_length,
                          int64_t *pyramid, size_t pyramid_length,
                          uint32_t *serials, size_t serials_length,
                          uint32_t *order, size_t order_length,
                          uint32_t *after);

/*
 * Relay: writes the pyramid of an older sheet, which lies row after row as earlier versions left it, by quarters into
 * second, a pyramid of its own, and nothing else. With the same serials, order and record the second one is a sound
 * sheet, and goes on as the first one would have. Places of second past the needed length stay.
 * Refusals: 1, 11, 3 (for either pyramid), 4, 5 (the sheet is to be sound row after row).
 */
uint32_t rulmedei_relay(uint32_t side,
                        uint32_t dots,
                        uint32_t knit,
                        const int64_t *pyramid, size_t pyramid_length,
                        const uint32_t *serials, size_t serials_length,
                        const uint32_t *order, size_t order_length,
                        int64_t *second, size_t second_length);

/*
 * The renewal by itself. It is none of the sixteen calls: rulmedei_advance renews in this way after each hole, and
 * here it can be had alone.
 */

/*
 * Renew: makes each coarser entry over the cell (row, column), or over one of its up to eight neighbours on the map,
 * the sum of its four entries on the level below, level by level up to the top. All other entries stay as they
 * are, right or wrong.
 *
 * RULMEDEI_DONE says that it did so: the side is one of the eight, the pyramid is long enough, row and column are below
 * the side, and each entry of the needed length is from -2^40 to 2^40. Else nothing has changed, and it returns
 * RULMEDEI_NOT_RENEWED.
 */
uint32_t rulmedei_renew(uint32_t side,
                        uint32_t row,
                        uint32_t column,
                        int64_t *pyramid, size_t pyramid_length);

/*
 * The lowering of greys, none of the sixteen calls either.
 */

/*
 * Lower: each grey above 240 becomes 240, whatever the length. rulmedei_sample gives greys up to 255, and rulmedei_load
 * refuses those above 240.
 */
void rulmedei_lower(uint8_t *greys, size_t greys_length);

#ifdef __cplusplus
}
#endif

#endif
