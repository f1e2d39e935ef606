//! The refusals are those of the header: names, numbers and words. The example in C has the same words.

use rulmedei::Refusal;

const HEADER: &str = include_str!("../../../include/rulmedei.h");
const EXAMPLE: &str = include_str!("../../../include/example.c");

const REFUSALS: [Refusal; 14] = [
    Refusal::SideUnknown,
    Refusal::GreysShort,
    Refusal::PyramidShort,
    Refusal::SheetShort,
    Refusal::SheetUnsound,
    Refusal::BlockUnknown,
    Refusal::TextMalformed,
    Refusal::OutputShort,
    Refusal::InputLong,
    Refusal::NameUnknown,
    Refusal::KnitUnknown,
    Refusal::GreyHigh,
    Refusal::PairFalls,
    Refusal::SideSmall,
];

/// The name, number and words of a line `#define RULMEDEI_NAME number /* words */`, where the number is a refusal's.
fn defined(line: &str) -> Option<(String, u32, String)> {
    let (name, rest) = line.strip_prefix("#define RULMEDEI_")?.split_once(' ')?;
    let (number, comment) = rest.split_once("/*")?;
    let words = comment.strip_suffix("*/")?;
    let number = number.trim().parse().ok().filter(|number| (1..100).contains(number))?;
    Some((name.to_string(), number, words.trim().to_string()))
}

/// A name as the header writes it: SIDE_UNKNOWN for SideUnknown.
fn header_name(refusal: Refusal) -> String {
    let mut name = String::new();
    for letter in format!("{refusal:?}").chars() {
        if letter.is_uppercase() && !name.is_empty() {
            name.push('_');
        }
        name.push(letter.to_ascii_uppercase());
    }
    name
}

/// For S 5.1, S 16.1.
#[test]
fn the_header_has_the_same_refusals() {
    let of_header: Vec<_> = HEADER.lines().filter_map(defined).collect();
    let ours = REFUSALS.map(|refusal| (header_name(refusal), refusal.number(), refusal.words().to_string()));
    assert_eq!(of_header, ours);
}

/// For S 5.1.
#[test]
fn the_numbers_are_1_to_14() {
    assert_eq!(REFUSALS.map(Refusal::number), [1, 2, 3, 4, 5, 6, 7, 8, 9, 10, 11, 12, 13, 14]);
}

#[test]
fn the_header_has_the_same_highest_grey() {
    let line = format!("#define RULMEDEI_HIGHEST {}", rulmedei::HIGHEST);
    assert!(HEADER.lines().any(|of_header| of_header == line));
}

#[test]
fn the_example_in_c_has_the_words_of_the_calls_refusals() {
    for refusal in REFUSALS.into_iter().filter(|refusal| *refusal != Refusal::InputLong) {
        let entry = format!("[RULMEDEI_{}] = \"{}\",", header_name(refusal), refusal.words());
        assert!(EXAMPLE.contains(&entry), "{entry}");
    }
}

/// For S 16.3.
#[test]
fn a_refusal_is_printed_with_its_number_and_words() {
    let printed = Refusal::TextMalformed.to_string();
    assert_eq!(printed, format!("refused, 7: {}", Refusal::TextMalformed.words()));
    assert_eq!(Refusal::TextMalformed.sentence(), "the text is not written as a map or sketch must be");
    assert_eq!(Refusal::SideSmall.sentence(), Refusal::SideSmall.words());
}
