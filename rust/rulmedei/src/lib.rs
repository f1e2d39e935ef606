//! Grey maps to ordered lists of holes: the sixteen calls of the proved library, on slices that the caller lends. No
//! call asks anything of its arguments; what doesn't fit is refused, and a refused call leaves every buffer as it was.
//! Each call below has the numbers of its refusals in the order in which it looks for them, and of several the first is
//! told. That is by rising number, but for 11, which comes directly after 1, 14, which comes between these two, and 12,
//! which in Restore comes before 10; Map Text, Lower Text and Sketch Quote have an order of their own.
//!
//! Map Text reads a map, Load fills the buffers, Advance makes holes until it is finished, and Drill List writes them
//! down (`examples/list.rs`). Tally, Levels and Quote Page look at what was made. Sample makes a map from a seed.
//! Compare tells which of two plates comes first, and Shelf puts many in order (`examples/shelf.rs`). Keep writes down
//! under a name how far a plate is, and Restore goes back to it. Two Heads makes all holes in one call, for a laser
//! with two heads.
//!
//! No map may have a grey above [`HIGHEST`]: Map Text, Load, Two Heads and Restore refuse it. Lower Text makes of a
//! text that was stored before one that they take.
//!
//! Where only a lowest and a highest grey are known of each cell, Sketch Quote says from such a sketch how many holes
//! there may be, and at most how many in each square. A sketch may have no grey above [`HIGHEST`] either.
//!
//! The pyramid lies by quarters: [`place`] says where. One that an earlier version left row after row is written anew
//! by Relay.
//!
//! Besides the sixteen there are `renew`, the renewal of sums that Advance does after each hole, by itself, and
//! `lower`, which lowers greys.

#[cfg(not(all(target_arch = "x86_64", target_os = "linux")))]
compile_error!("the proved library is compiled for x86-64 Linux");

mod c;
pub mod codes;
mod refusal;

pub use refusal::Refusal;

use refusal::{did, refused, AFTER, AFTER_AT, BEFORE, BEFORE_AT, MORE, SAME};

/// The knit of plain cloth. A hole is mostly more than its cell asks for, and the rest is taken from the cells around
/// it: here from those above, below and beside it twice as much as from those at its corners.
pub const PLAIN: u32 = 0;

/// The knit of ribbed cloth: the rest is taken from the cells above, below and beside the hole alone, from each as
/// much.
pub const RIBBED: u32 = 1;

/// The highest grey that a map may have.
pub const HIGHEST: u8 = 240;

/// The record that goes from call to call: the side, the holes made so far, and the knit, `PLAIN` or `RIBBED`. Any
/// numbers may be handed in.
#[derive(Clone, Copy, Debug, PartialEq, Eq)]
pub struct Progress {
    pub side: u32,
    pub dots: u32,
    pub knit: u32,
}

/// What Advance answers: the record afterwards, how many holes the call made, and whether none are due any more.
#[derive(Clone, Copy, Debug, PartialEq, Eq)]
pub struct Advanced {
    pub progress: Progress,
    pub made: u32,
    pub finished: bool,
}

/// What Two Heads answers: the record, all holes, and what the map then still asks for, which may be below 0.
#[derive(Clone, Copy, Debug, PartialEq, Eq)]
pub struct TwoHeads {
    pub progress: Progress,
    pub made: u32,
    pub debt: i64,
}

/// What Compare answers: whether the left plate comes before the right one or after it, or both are burnt alike. Where
/// they have as many holes, with the first cell, by row then column, that is burnt on one of them alone.
#[derive(Clone, Copy, Debug, PartialEq, Eq)]
pub enum Compared {
    /// The left plate has fewer holes.
    Before,
    /// Both have as many holes, and the left one is unburnt at this cell.
    BeforeAt { row: u32, column: u32 },
    /// The same cells are burnt.
    Same,
    /// Both have as many holes, and the right one is unburnt at this cell.
    AfterAt { row: u32, column: u32 },
    /// The right plate has fewer holes.
    After,
}

/// What Sketch Quote answers: the side of the sketch, and the holes of the map that has all its lows, and of the one
/// with all its highs, each when finished.
#[derive(Clone, Copy, Debug, PartialEq, Eq)]
pub struct SketchQuote {
    pub side: u32,
    pub least: u32,
    pub greatest: u32,
}

/// The counts of holes under the names 1 to 8, beside a sheet. All names are empty at first: `Checkpoints::default()`.
/// Any value may be handed in.
#[derive(Clone, Copy, Debug, Default, PartialEq, Eq)]
pub struct Checkpoints {
    /// Place i is that of name i + 1: 0 while it is empty, else 1 more than the holes kept, which may be 0.
    pub kept: [u64; 8],
}

impl Checkpoints {
    /// The holes kept under a name; `None` if it is empty, or no name from 1 to 8.
    pub fn dots(&self, name: u32) -> Option<u64> {
        let place = name.checked_sub(1)?;
        self.kept.get(place as usize)?.checked_sub(1)
    }
}

/// The length that greys, serials and order need: the cells of a map, N². The side is one of 2, 4, 8 .. 256.
pub fn cells(side: u32) -> usize {
    side as usize * side as usize
}

/// The length that the pyramid needs: (4N² − 1) / 3.
pub fn pyramid_length(side: u32) -> usize {
    cells(side).saturating_mul(4).saturating_sub(1) / 3
}

/// The place of entry (row, column) of a level in the pyramid: behind the 4^0 + 4^1 + .. entries of the levels before
/// it come those of the level, and there bit 2 i of the place is bit i of the column, and bit 2 i + 1 is bit i of the
/// row. So the four entries below the one at place i are at the places 4 i + 1 to 4 i + 4. Row and column are below
/// 2^level, and the level is at most 8.
///
/// ```
/// use rulmedei::place;
///
/// let level: Vec<usize> = (0..16).map(|cell| place(2, cell / 4, cell % 4)).collect();
/// assert_eq!(level, [5, 6, 9, 10, 7, 8, 11, 12, 13, 14, 17, 18, 15, 16, 19, 20]);
/// ```
pub fn place(level: u32, row: usize, column: usize) -> usize {
    let bits = |number: usize, bit: u32| (number >> bit & 1) << (2 * bit);
    (0..level).map(|bit| (1 << (2 * bit)) + bits(column, bit) + 2 * bits(row, bit)).sum()
}

/// The length that the page of a level needs: 29 bytes for each of its squares, 29 × 4^level. Past level 8 no map has
/// a page; where the number has no place in a `usize`, it is the largest one.
pub fn page_length(level: u32) -> usize {
    4usize.saturating_pow(level).saturating_mul(29)
}

/// A length that is enough for every drill list of a map of this side, whose lines have at most 14 bytes each.
pub fn list_room(side: u32) -> usize {
    cells(side).saturating_add(1).saturating_mul(14)
}

/// Load: fills the pyramid from the greys and sets the cells of serials and order to 0. The knit goes into the record,
/// and plays no part in this. Refusals: 1, 11, 2, 3, 4, 12 (for the N² greys of the map; those past them are not looked
/// at).
pub fn load(
    side: u32,
    knit: u32,
    greys: &[u8],
    pyramid: &mut [i64],
    serials: &mut [u32],
    order: &mut [u32],
) -> Result<Progress, Refusal> {
    let (code, record) = codes::load(side, knit, greys, pyramid, serials, order);
    did(code)?;
    Ok(record)
}

/// Advance: makes the holes that are due, at most `budget` of them, from the record that the call before returned, on
/// the same buffers. Of equal quarters a hole with an odd serial goes to the first, by row then column, and one with
/// an even serial to the last. The record's knit says what the cells around a hole bear, and stays. What does not
/// divide evenly among them follows from sums rounded down: over the corners by row then column, then up, left, right,
/// down.
/// Every call tests the whole sheet first, which takes as long as a thousand holes or more at side 256: so ask for many
/// holes in one call and take them from the order list one by one, rather than for one hole a call.
/// Refusals: 1, 11, 3, 4, 5.
pub fn advance(
    progress: Progress,
    budget: u32,
    pyramid: &mut [i64],
    serials: &mut [u32],
    order: &mut [u32],
) -> Result<Advanced, Refusal> {
    let (code, progress, made) = codes::advance(progress, budget, pyramid, serials, order);
    let finished = code != MORE;
    if finished {
        did(code)?;
    }
    Ok(Advanced { progress, made, finished })
}

/// Two Heads: fills the buffers as Load does and makes all holes at once, for a laser that burns with two heads. It
/// cuts the map into macroblocks of 8 by 8 cells, in rounds that begin one after the other at rows and columns (0, 0),
/// (0, 4), (4, 0) and (4, 4); those that would leave the map are left out. In its round a macroblock that asks for half
/// a hole or more, 32,640, goes to that one of its four blocks of 4 by 4 cells that asks for most, and from there down
/// to a cell, of equals always to the first by row then column. This cell is burnt, and the rest spread, as by Advance;
/// unless it lies on a side of the macroblock's rim that is not an edge of the map, when the macroblock burns nothing
/// in this round. Once four rounds on end have burnt nothing all is done. The holes of a round have their serials by
/// macroblock, by row then column. Their cells, and the pyramid, are the same in whatever order its macroblocks are
/// worked.
///
/// The debt is what the map still asks for, the first entry of the pyramid: 65,280 × holes + debt = 256 × the sum of
/// the map's greys. What is said of the number of holes, of caps and of floors is said of Load and Advance, and does
/// not hold here.
///
/// Refusals: 1, 14, 11, 2, 3, 4, 12 (as by Load).
///
/// ```
/// use rulmedei::{two_heads, Progress, Refusal, TwoHeads, PLAIN};
///
/// let (mut greys, mut pyramid, mut serials, mut order) = ([0; 256], [0; 341], [0; 256], [0; 256]);
/// greys[7 * 16 + 7] = 240;
/// greys[10 * 16 + 10] = 200;
/// let end = two_heads(16, PLAIN, &greys, &mut pyramid, &mut serials, &mut order)?;
/// assert_eq!(end, TwoHeads { progress: Progress { side: 16, dots: 2, knit: PLAIN }, made: 2, debt: -17920 });
/// // the darker cell lies on the rim of its first macroblock, and is burnt in a later round
/// assert_eq!(order[..2], [10 * 16 + 10, 7 * 16 + 7]);
/// let small = two_heads(8, PLAIN, &greys, &mut pyramid, &mut serials, &mut order);
/// assert_eq!(small, Err(Refusal::SideSmall));
/// # Ok::<(), rulmedei::Refusal>(())
/// ```
pub fn two_heads(
    side: u32,
    knit: u32,
    greys: &[u8],
    pyramid: &mut [i64],
    serials: &mut [u32],
    order: &mut [u32],
) -> Result<TwoHeads, Refusal> {
    let (code, end) = codes::two_heads(side, knit, greys, pyramid, serials, order);
    did(code)?;
    Ok(end)
}

/// Tally: the holes of the aligned square (row, column) of a level; level 0 is the whole map, and level k has 2^k by
/// 2^k squares. Refusals: 1, 4, 6.
pub fn tally(side: u32, serials: &[u32], level: u32, row: u32, column: u32) -> Result<u32, Refusal> {
    let (code, dots) = codes::tally(side, serials, level, row, column);
    did(code)?;
    Ok(dots)
}

/// Levels: for each level, level 0 first, the sum over its squares of the square of their summed errors; 0 past the
/// map's last level. Refusals: 1, 2, 4.
pub fn levels(side: u32, greys: &[u8], serials: &[u32]) -> Result<[u64; 9], Refusal> {
    let (code, sums) = codes::levels(side, greys, serials);
    did(code)?;
    Ok(sums)
}

/// Map Text: reads a line with the side, then a line of greys, parted by commas, for each row; returns the side.
/// Refusals: 7 for the first line, then 1, 2, then 7 for the rest, which a grey above 255 is too, then 12.
pub fn map_text(text: &[u8], greys: &mut [u8]) -> Result<u32, Refusal> {
    let (code, side) = codes::map_text(text, greys);
    did(code)?;
    Ok(side)
}

/// Lower Text: reads a stored text by the grammar of Map Text, whose greys may be up to 255, lowers each grey above 240
/// to 240, and writes the text of the result, which Map Text takes. Returns the number of bytes; they are as many as
/// the text has that was read, and a text without a grey above 240 is copied. The lowered greys are written by row.
/// Greys past N² stay, and so do bytes past the text. Refusals: 7 for the first line, then 1, 2, then 7 for the rest,
/// then 8.
///
/// ```
/// use rulmedei::{lower_text, map_text, Refusal};
///
/// let stored = b"2\n255,9\n241,240\n";
/// let (mut greys, mut text) = ([0; 4], [0; 17]);
/// assert_eq!(map_text(stored, &mut greys), Err(Refusal::GreyHigh));
/// let length = lower_text(stored, &mut greys, &mut text)?;
/// assert_eq!(&text[..length], b"2\n240,9\n240,240\n");
/// assert_eq!(greys, [240, 9, 240, 240]);
/// assert_eq!(map_text(&text[..length], &mut greys), Ok(2));
/// # Ok::<(), rulmedei::Refusal>(())
/// ```
pub fn lower_text(text: &[u8], greys: &mut [u8], output: &mut [u8]) -> Result<usize, Refusal> {
    let (code, length) = codes::lower_text(text, greys, output);
    did(code)?;
    Ok(length)
}

/// Sketch Quote: reads a sketch, a line with the side and then for each row a line of pairs `low,high`, one for each
/// cell, with commas between them too; otherwise it is as a map text. Writes the lows and the highs by row, and for
/// each aligned square of a level, by row then column, the greatest cap: that of `quote_page`, of the square's highs.
/// Places past the N² greys stay, and so do those past the 4^level caps. Returns the side, the least total and the
/// greatest one, (2 × the sum of the lows, or of the highs, + 255) / 510 rounded down.
///
/// Each map whose greys are between the lows and the highs has, when finished, at least `least` holes and at most
/// `greatest`; the lows themselves come to the one and the highs to the other. At no time has one of its squares more
/// holes than its cap. That is so on either knit.
///
/// Refusals: 7 for the first line, then 1, 2 (for either greys buffer), then 7 for the rest, 12 (for a low or a high),
/// 13, 6 (for the level), 8 (for caps with fewer than 4^level places).
///
/// ```
/// use rulmedei::{sketch_quote, Refusal, SketchQuote};
///
/// let (mut lows, mut highs, mut caps) = ([0; 4], [0; 4], [0]);
/// let quote = sketch_quote(b"2\n10,20,0,240\n128,128,5,6\n", 0, &mut lows, &mut highs, &mut caps)?;
/// assert_eq!(quote, SketchQuote { side: 2, least: 1, greatest: 2 });
/// assert_eq!((lows, highs, caps), ([10, 0, 128, 5], [20, 240, 128, 6], [4]));
/// let falls = sketch_quote(b"2\n20,10,0,240\n128,128,5,6\n", 0, &mut lows, &mut highs, &mut caps);
/// assert_eq!(falls, Err(Refusal::PairFalls));
/// # Ok::<(), rulmedei::Refusal>(())
/// ```
pub fn sketch_quote(
    text: &[u8],
    level: u32,
    lows: &mut [u8],
    highs: &mut [u8],
    caps: &mut [u32],
) -> Result<SketchQuote, Refusal> {
    let (code, quote) = codes::sketch_quote(text, level, lows, highs, caps);
    did(code)?;
    Ok(quote)
}

/// Drill List: writes the number of holes and the side on a first line, and then the serial, row and column of each
/// hole, a line for each as they were made; commas part the numbers. Returns the number of bytes; those past it stay.
/// The list is the same for either knit. Refusals: 1, 11, 3, 4, 5, 8.
pub fn drill_list(
    progress: Progress,
    pyramid: &[i64],
    serials: &[u32],
    order: &[u32],
    out: &mut [u8],
) -> Result<usize, Refusal> {
    let (code, length) = codes::drill_list(progress, pyramid, serials, order, out);
    did(code)?;
    Ok(length)
}

/// Quote Page: writes for each aligned square of a level, by row then column, a line with the square's row (3 wide),
/// column (3), grey sum (8), holes (5) and cap (5), right aligned, with one space between; returns the number of bytes,
/// which is `page_length(level)`. Those past it stay. The cap of a square with s cells along its side is
/// (3 × grey sum + 764 + 1,020 × s) / 765, rounded down, and at most s². The holes are at most the cap where Load
/// and Advance made the serials from these greys. Refusals: 1, 2, 4, 6, 8.
pub fn quote_page(side: u32, greys: &[u8], serials: &[u32], level: u32, out: &mut [u8]) -> Result<usize, Refusal> {
    let (code, length) = codes::quote_page(side, greys, serials, level, out);
    did(code)?;
    Ok(length)
}

/// Sample: fills the greys, by row, from a seed; returns the state reached. The state is the seed at first; for each
/// grey it becomes (1,664,525 × state + 1,013,904,223) modulo 2^32, and the grey is the new state divided by 2^24,
/// rounded down. A further call with the state reached as its seed goes on where this one ended. Greys past N² stay.
/// The greys go up to 255, so whoever loads a sample lowers it first (`lower`). Refusals: 1, 2.
///
/// ```
/// use rulmedei::{load, lower, sample, Refusal, PLAIN};
///
/// let (mut greys, mut pyramid, mut serials, mut order) = ([0; 16], [0; 21], [0; 16], [0; 16]);
/// sample(7, 4, &mut greys)?;
/// assert_eq!(greys[9], 251);
/// assert_eq!(load(4, PLAIN, &greys, &mut pyramid, &mut serials, &mut order), Err(Refusal::GreyHigh));
/// lower(&mut greys);
/// load(4, PLAIN, &greys, &mut pyramid, &mut serials, &mut order)?;
/// # Ok::<(), rulmedei::Refusal>(())
/// ```
pub fn sample(seed: u32, side: u32, greys: &mut [u8]) -> Result<u32, Refusal> {
    let (code, state) = codes::sample(seed, side, greys);
    did(code)?;
    Ok(state)
}

/// Compare: how the left of two plates of a side stands to the right one. A plate is a serial sheet, of which only the
/// burnt cells count, those whose serial isn't 0. It comes before each plate with more holes, and of those with as many
/// before each that is burnt at the first cell, by row then column, at which the two differ. Refusals: 1, 4.
///
/// ```
/// use rulmedei::{compare, Compared};
///
/// let (left, right) = ([0, 7, 0, 1], [1, 0, 0, 2]);
/// assert_eq!(compare(2, &left, &right), Ok(Compared::BeforeAt { row: 0, column: 0 }));
/// assert_eq!(compare(2, &right, &left), Ok(Compared::AfterAt { row: 0, column: 0 }));
/// ```
pub fn compare(side: u32, left: &[u32], right: &[u32]) -> Result<Compared, Refusal> {
    let (code, [row, column]) = codes::compare(side, left, right);
    match code {
        BEFORE => Ok(Compared::Before),
        BEFORE_AT => Ok(Compared::BeforeAt { row, column }),
        SAME => Ok(Compared::Same),
        AFTER_AT => Ok(Compared::AfterAt { row, column }),
        AFTER => Ok(Compared::After),
        _ => Err(refused(code)),
    }
}

/// Shelf: writes the numbers of n plates, 0 to n − 1, into the first n places of the list, in the order of `compare`;
/// of plates that are burnt alike, the lower number first. The plates stand one after the other, N² serials each.
/// Places past the n-th stay. Two plates are compared at most n × (1 + log2 n) times. Refusals: 1, 4, 8.
///
/// ```
/// // three plates of side 2; the first and the last are burnt alike
/// let plates = [1, 0, 0, 2, 0, 1, 0, 0, 2, 0, 0, 1];
/// let mut list = [0; 3];
/// rulmedei::shelf(2, 3, &plates, &mut list)?;
/// assert_eq!(list, [1, 0, 2]);
/// # Ok::<(), rulmedei::Refusal>(())
/// ```
pub fn shelf(side: u32, n: u32, plates: &[u32], list: &mut [u32]) -> Result<(), Refusal> {
    did(codes::shelf(side, n, plates, list))
}

/// Keep: writes the holes of the record down under a name from 1 to 8, over what was kept there, and returns the counts
/// so changed. Neither a sheet nor the knit is looked at: the record may have any number of holes, and any knit.
/// Refusals: 1, 10.
pub fn keep(progress: Progress, checkpoints: Checkpoints, name: u32) -> Result<Checkpoints, Refusal> {
    let (code, after) = codes::keep(progress, checkpoints, name);
    did(code)?;
    Ok(after)
}

/// Restore, the return to a name: makes the sheet what Load makes of the greys, and then Advance with the name's count
/// of holes as its budget, on the record's knit; returns its record. With the greys and the knit that were loaded this
/// is the sheet on which the name was kept, if only Advance, and Restore with these greys, have written to it since the
/// load, all with that knit. The counts all stay, so that one can go back, and to a later stage forwards again. With
/// other greys, or the other knit, the sheet is theirs.
///
/// Refusals: 1, 11, 2, 3, 4, 5 (though the sheet is then made anew), 12 (for the N² greys), 10 (also for an empty name,
/// and for more holes than the total, (2 × the sum of the N² greys + 255) / 510 rounded down).
///
/// ```
/// use rulmedei::{advance, keep, load, restore, Checkpoints, PLAIN};
///
/// let greys = [128; 4];
/// let (mut pyramid, mut serials, mut order) = ([0; 5], [0; 4], [0; 4]);
/// let start = load(2, PLAIN, &greys, &mut pyramid, &mut serials, &mut order)?;
/// let stage = advance(start, 1, &mut pyramid, &mut serials, &mut order)?.progress;
/// let checkpoints = keep(stage, Checkpoints::default(), 3)?;
/// let end = advance(stage, u32::MAX, &mut pyramid, &mut serials, &mut order)?.progress;
/// assert_eq!((end.dots, serials), (2, [1, 0, 0, 2]));
/// let back = restore(end, checkpoints, 3, &greys, &mut pyramid, &mut serials, &mut order)?;
/// assert_eq!((back, serials), (stage, [1, 0, 0, 0]));
/// # Ok::<(), rulmedei::Refusal>(())
/// ```
pub fn restore(
    progress: Progress,
    checkpoints: Checkpoints,
    name: u32,
    greys: &[u8],
    pyramid: &mut [i64],
    serials: &mut [u32],
    order: &mut [u32],
) -> Result<Progress, Refusal> {
    let (code, after) = codes::restore(progress, &checkpoints, name, greys, pyramid, serials, order);
    did(code)?;
    Ok(after)
}

/// Relay: writes the pyramid of an older sheet, which lies row after row as earlier versions left it, by quarters into
/// a second pyramid, and nothing else. With the same serials, order and record the second one is a sound sheet, and
/// goes on as the first one would have. Places of the second pyramid past the needed length stay.
/// Refusals: 1, 11, 3 (for either pyramid), 4, 5 (the sheet is to be sound row after row).
///
/// ```
/// use rulmedei::{advance, load, place, relay, PLAIN};
///
/// // a sheet of side 4 without holes, row after row: all its cells have the grey 128
/// let old: Vec<i64> = [vec![16 * 32_768], vec![4 * 32_768; 4], vec![32_768; 16]].concat();
/// let (mut serials, mut order) = ([0; 16], [0; 16]);
/// let (mut pyramid, mut fresh) = ([0; 21], [0; 21]);
/// let record = load(4, PLAIN, &[128; 16], &mut fresh, &mut serials, &mut order)?;
/// relay(record, &old, &serials, &order, &mut pyramid)?;
/// assert_eq!(pyramid, fresh);
/// # Ok::<(), rulmedei::Refusal>(())
/// ```
pub fn relay(
    progress: Progress,
    pyramid: &[i64],
    serials: &[u32],
    order: &[u32],
    second: &mut [i64],
) -> Result<(), Refusal> {
    did(codes::relay(progress, pyramid, serials, order, second))
}

/// The renewal by itself, none of the sixteen calls: makes each coarser entry over the cell (row, column), or over one
/// of its up to eight neighbours on the map, the sum of its four entries on the level below, level by level up to the
/// top. All other entries stay as they are, right or wrong.
///
/// True where it did so: the side is one of the eight, the pyramid is long enough, row and column are below the side,
/// and each entry of the needed length is from −2^40 to 2^40. Else false, and nothing has changed.
pub fn renew(side: u32, row: u32, column: u32, pyramid: &mut [i64]) -> bool {
    codes::renew(side, row, column, pyramid) == 0
}

/// Lowers greys, none of the sixteen calls: each grey above 240 becomes 240, whatever the length. Sample gives greys
/// up to 255, and Load refuses those above 240.
pub fn lower(greys: &mut [u8]) {
    codes::lower(greys);
}
