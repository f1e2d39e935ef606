//! What the command says of itself.

/// The version, with the commit of the checkout that it was built from.
pub const VERSION: &str = concat!("rulmedei ", env!("CARGO_PKG_VERSION"), ", engine ", env!("RULMEDEI_COMMIT"));

pub const COMMAND: &str = "\
use: rulmedei SUBCOMMAND [ARGUMENT...]

  drill     the holes of a map in order, as a list, a picture or a program for a machine
  quote     the panels of the finished map with their holes and caps, as text, CSV or a page
  figures   what is signed before any hole is made: number of holes, caps and floors
  sketch    the least and greatest number of holes of a map that is not drawn yet, and the caps
  sample    a map made from a seed
  convert   a picture or an old map text as a map text that passes
  compare   which of two plates comes first
  shelf     plates in order

'rulmedei SUBCOMMAND --help' says more; --version tells the engine's commit.
A file that is '-', or none, is standard input. '-o FILE' writes to FILE, which is whole or stays.
Status: 0 done, 1 the input is refused, 2 wrong use, 3 reading or writing failed.
";

/// On what every subcommand with a map takes.
macro_rules! map_words {
    () => {
        "\nMAP is a map text, or a PGM picture (P2, P5), told apart by the first bytes. In a picture dark is
ink: grey = 255 - the value scaled to 255; with --invert grey = the value scaled to 255. Its side
is 2, 4, 8, 16, 32, 64, 128 or 256; nothing is resized. A grey above 240 is refused, and
'rulmedei convert' lowers it.
"
    };
}

pub const DRILL: &str = concat!(
    "\
use: rulmedei drill [MAP] [OPTION...]
The holes of a map in the order in which they are burnt.

  -f FORMAT      list (a drill list), pbm, svg, dxf or excellon; list if not given
  -o FILE        writes to FILE in place of standard output
  --knit KNIT    the cloth: plain or ribbed; plain if not given
  --heads N      1, or 2 for a laser with two heads; 1 if not given
  --first J      only the first J holes
  --cell-mm MM   the side of a cell in svg, dxf and excellon, 0.1 to 100; 3 if not given
  --invert       in a picture light is ink
",
    map_words!()
);

pub const QUOTE: &str = concat!(
    "\
use: rulmedei quote [MAP] [OPTION...]
The panels of the finished map: row, column, grey sum, holes and cap of each.

  -f FORMAT      text (columns), csv or html (a page to print and sign); text if not given
  -o FILE        writes to FILE in place of standard output
  --level K      how often the map is cut into quarters; 2 if not given, or 1 at side 2
  --knit KNIT    the cloth: plain or ribbed; plain if not given
  --invert       in a picture light is ink
",
    map_words!()
);

pub const FIGURES: &str = concat!(
    "\
use: rulmedei figures [MAP] [OPTION...]
What is signed before any hole is made: the number of holes; and for each panel its row, column,
grey sum, cap (never more holes) and floor (at least so many when finished, with one head).

  -o FILE        writes to FILE in place of standard output
  --level K      how often the map is cut into quarters; 2 if not given, or 1 at side 2
  --invert       in a picture light is ink
",
    map_words!()
);

pub const SKETCH: &str = "\
use: rulmedei sketch [SKETCH] [OPTION...]
The least and the greatest number of holes of a map between the lows and the highs of a sketch;
then for each panel its row, column and greatest cap.

  -o FILE        writes to FILE in place of standard output
  --level K      how often the map is cut into quarters; 2 if not given, or 1 at side 2

SKETCH is a text with the side on its first line and then, for each row, a line with a lowest and a
highest grey for each cell, parted by commas.
";

pub const SAMPLE: &str = "\
use: rulmedei sample [OPTION...]
The map text of a pseudo-random map that anyone can make again, its greys lowered to 240.

  -o FILE        writes to FILE in place of standard output
  --seed S       0 to 4294967295; 1 if not given
  --side N       2, 4, 8, 16, 32, 64, 128 or 256; 32 if not given
";

pub const CONVERT: &str = "\
use: rulmedei convert [FILE] [OPTION...]
The map text of a PGM picture (P2, P5), or of a stored map text, with each grey above 240 lowered
to 240. The result passes; a map text that passes already is copied.

  -o FILE        writes to FILE in place of standard output
  --invert       in a picture light is ink

In a picture dark is ink: grey = 255 - the value scaled to 255; with --invert grey = the value
scaled to 255. Its side is 2, 4, 8, 16, 32, 64, 128 or 256; nothing is resized.
";

pub const COMPARE: &str = "\
use: rulmedei compare LEFT RIGHT [-o FILE]
How the left plate stands to the right one: 'before' if it has fewer holes, 'after' if it has more,
'same' if the same cells are burnt; with as many holes 'before,ROW,COLUMN' or 'after,ROW,COLUMN',
by the first cell that is burnt on one alone: the plate that is unburnt there comes before.

A plate is a drill list, or a map, which is burnt to its end on plain cloth with one head.
";

pub const SHELF: &str = "\
use: rulmedei shelf PLATE... [-o FILE]
The files of plates of one side in the order of 'rulmedei compare', one a line. Plates that are
burnt alike stay in the order in which they are given.

A plate is a drill list, or a map, which is burnt to its end on plain cloth with one head.
";
