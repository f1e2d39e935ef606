//! What the calls answer, and the record that goes from call to call.

/// The record: the side, how many dots there are (a dot is a hole), and the knit, `PLAIN` or `RIBBED` (S 2.8).
#[derive(Debug, Clone, Copy, PartialEq, Eq)]
pub struct Progress {
    pub side: u32,
    pub dots: u32,
    pub knit: u32,
}

/// Why a call says no, one case for each number (S 5.1).
#[derive(Debug, Clone, Copy, PartialEq, Eq)]
pub enum Refusal {
    /// the side is none of the eight
    BadSide,
    /// fewer greys than cells
    ShortGreys,
    /// a pyramid below its needed length
    ShortPyramid,
    /// a serial sheet or a lent order list with fewer places than the map has cells, or a shelf without n whole plates
    ShortSheet,
    /// the sheet fails one of its seven conditions
    NotSound,
    /// no such level, or no such block on it
    BadBlock,
    /// the text is none that can be read
    BadText,
    /// an output shorter than the list or the page, a list of plates shorter than n, or fewer places for a sketch's
    /// caps than the level has blocks
    ShortOutput,
    /// an input of more than 4,099 bytes, of a program
    LongInput,
    /// none of the eight names; on a return also one without a count, or with more dots than the map's total
    UnknownName,
    /// neither of the two knits
    UnknownKnit,
    /// a grey of the map above 240, or of a sketch
    HighGrey,
    /// a pair of a sketch whose low is above its high
    FallingPair,
    /// a side below 16, which two heads have no room on
    SmallSide,
}

impl Refusal {
    /// The number of a refusal (S 5.1).
    pub fn number(self) -> u32 {
        match self {
            Refusal::BadSide => 1,
            Refusal::ShortGreys => 2,
            Refusal::ShortPyramid => 3,
            Refusal::ShortSheet => 4,
            Refusal::NotSound => 5,
            Refusal::BadBlock => 6,
            Refusal::BadText => 7,
            Refusal::ShortOutput => 8,
            Refusal::LongInput => 9,
            Refusal::UnknownName => 10,
            Refusal::UnknownKnit => 11,
            Refusal::HighGrey => 12,
            Refusal::FallingPair => 13,
            Refusal::SmallSide => 14,
        }
    }
}

/// Load answers the side, 0 dots and the knit that it was given; three zeros where it says no, with the refusal.
#[derive(Debug, Clone, Copy, PartialEq, Eq)]
pub struct LoadAnswer {
    pub progress: Progress,
    pub status: Result<(), Refusal>,
}

/// What Advance says: finished where the top is less than half a dot (S 7.3).
#[derive(Debug, Clone, Copy, PartialEq, Eq)]
pub enum Ended {
    Finished,
    More,
}

/// Advance's answer: the new record, the dots made in this call, and what it says. A refused call gives the record as
/// it was, no dot made, and the refusal (S 7.3, S 7.4).
#[derive(Debug, Clone, Copy, PartialEq, Eq)]
pub struct AdvanceAnswer {
    pub progress: Progress,
    pub made: u32,
    pub status: Result<Ended, Refusal>,
}

/// How the left of two plates stands to the right one: before it, the same, or after it. Where both have as many dots,
/// with the row and column of the first cell at which they differ.
#[derive(Debug, Clone, Copy, PartialEq, Eq)]
pub enum Compared {
    Before,
    BeforeAt(u32, u32),
    Same,
    AfterAt(u32, u32),
    After,
}

impl Compared {
    /// Whether the left plate comes before the right one.
    pub fn is_before(self) -> bool {
        matches!(self, Compared::Before | Compared::BeforeAt(..))
    }
}

/// What Sketch Quote answers: the side, and the totals of the map of the lows and of that of the highs.
#[derive(Debug, Clone, Copy, PartialEq, Eq)]
pub struct SketchQuote {
    pub side: u32,
    pub least: u32,
    pub greatest: u32,
}

/// What the call for two heads answers: the record, the dots, and the debt, which is the top and may end on either side
/// of 0; all are 0 where it says no, with the refusal.
#[derive(Debug, Clone, Copy, PartialEq, Eq)]
pub struct TwoHeadsAnswer {
    pub progress: Progress,
    pub made: u32,
    pub debt: i64,
    pub status: Result<(), Refusal>,
}

/// The eight counts of dots that stand beside a sheet, place i for name i + 1: 0 while the name is empty, else one more
/// than the dots kept, so that no dots can be kept too. All are empty at first.
#[derive(Debug, Clone, Copy, PartialEq, Eq, Default)]
pub struct Checkpoints {
    pub kept: [u64; 8],
}

/// What Keep and Restore answer: the record and the counts afterwards, both as given where the call says no.
#[derive(Debug, Clone, Copy, PartialEq, Eq)]
pub struct CheckpointAnswer {
    pub progress: Progress,
    pub checkpoints: Checkpoints,
    pub status: Result<(), Refusal>,
}
