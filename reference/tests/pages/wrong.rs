//! Wrong pages: each has one thing changed, and the checks must notice.

use crate::number::{figure_length, written};
use crate::page::Page;
use crate::{check, QUOTES, SPECIFICATION};

/// What is changed, at the first place where it stands: on QUOTES.md.
const WRONG_QUOTES: [(&str, &str); 30] = [
    // formulas
    ("floor((2 x G + 255) / 510)", "floor((2 x G + 254) / 510)"),
    ("floor((2 x G + 255) / 510)", "floor((2 x G + 255) / 255)"),
    ("floor((2 x G + 255) / 510)", "(2 x G + 255) / 510"),
    ("3 x g + 764", "3 x g + 765"),
    ("1,020 x s) / 765)\n\nThat", "1,021 x s) / 765)\n\nThat"),
    ("the smaller of  s x s  and", "the smaller of  s x 2  and"),
    ("2,040 x (N - s)", "2,004 x (N - s)"),
    ("1,530 x k", "1,530 x k x k"),
    ("floor(x / 510) + 1", "floor(x / 510)"),
    ("the sum of the lows  + 255", "the sum of the highs  + 255"),
    ("the panel's highs + 764", "the panel's highs + 746"),
    ("That is G / 255", "That is G / 256"),
    ("3 holes for each cut", "4 holes for each cut"),
    // worked lines
    ("(2 x 67,923 + 255) / 510 = 266.9", "(2 x 67,932 + 255) / 510 = 266.9"),
    ("266.9, so 266", "266.8, so 266"),
    ("so 266 holes", "so 267 holes"),
    ("so at most 43 holes (64 cells)", "so at least 43 holes (64 cells)"),
    ("= 5,853", "= 5,835"),
    ("- 1,530 - 2,040 x (32 - 16)", "- 1,530 x 2 - 2,040 x (32 - 16)"),
    ("46.97", "46.79"),
    // outputs and figures
    ("      3   3     8235    32    43", "      3   3     8235    33    43"),
    ("      3   3    46", "      3   3   46"),
    ("list of 266 holes", "list of 267 holes"),
    ("61,681 of", "61,680 of"),
    ("cap of 1,007", "cap of 1,006"),
    ("49 of the 64", "48 of the 64"),
    ("whole liner, 856,", "whole liner, 857,"),
    ("| 64 | 33 | 198 | none |", "| 64 | 33 | 197 | none |"),
    ("| 32 | 68 | none | none |\n", ""),
    ("so 266 holes\n", "so 266 holes\n    1 + 1 = 3\n"),
];

/// The same on SPECIFICATION.md.
const WRONG_SPECIFICATION: [(&str, &str); 24] = [
    ("(4^k − 1) / 3", "(4^k + 1) / 3"),
    ("at 4i + 1 to 4i + 4", "at 4i + 1 to 4i + 3"),
    ("(floor(a / 32), floor(b / 32))", "(floor(b / 32), floor(a / 32))"),
    ("x × N + y", "y × N + x"),
    ("floor((t + 32,640) / 65,280)", "floor((t + 32,640) / 65,208)"),
    ("d = 65,280 − W", "d = W − 65,280"),
    ("floor(d × c' / D)", "floor(d × c' / 12)"),
    ("8 on a side and 5", "7 on a side and 5"),
    ("debt 256 × grey", "debt 255 × grey"),
    ("(3 × g + 764 + 1,020 × s) / 765)", "(3 × g + 763 + 1,020 × s) / 765)"),
    ("smaller of s² and", "smaller of s and"),
    ("29 × 4^level", "29 × 2^level"),
    ("floor((2 × G + 255) / 510) with G", "floor((2 × G + 254) / 510) with G"),
    ("more holes than floor((2 × G + 255) / 510)", "more holes than floor((2 × G + 255) / 500)"),
    ("1,664,525", "1,664,552"),
    ("4 × (t mod 2) + 8j", "4 × (t mod 4) + 8j"),
    ("smaller of floor((2 × G + 255) / 510) and", "smaller of floor((G + 255) / 510) and"),
    ("(3 × g + 765 + 1,020 × s) / 765 holes", "(3 × g + 764 + 1,020 × s) / 765 holes"),
    ("2,040 × (N − s)) / 510", "2,004 × (N − s)) / 510"),
    ("58,061, 58,060", "58,060, 58,061"),
    ("makes 0, 1 and 1 holes", "makes 1, 1 and 0 holes"),
    ("G = 382", "G = 383"),
    ("refused with 5.", "refused with 4."),
    ("Quote Page** takes a side", "Quote Page** takes floor(2), a side"),
];

#[test]
fn wrong_pages_are_noticed() {
    for (path, table) in [(QUOTES, &WRONG_QUOTES[..]), (SPECIFICATION, &WRONG_SPECIFICATION[..])] {
        for (from, to) in table {
            let mut page = Page::read(path);
            assert!(page.text.contains(from), "{path} has no '{from}' that could be changed");
            page.text = page.text.replacen(from, to, 1);
            let said = check(&page).expect_err(&format!("{path} with '{to}' for '{from}' is not noticed"));
            assert!(said.starts_with(path), "no page is named in '{said}'");
        }
    }
}

/// What is taken out or worded anew, and what the message says of it.
const TAKEN_OUT: [(&str, &str, &str); 8] = [
    (QUOTES, "    holes = floor((2 x G + 255) / 510)\n", "docs/QUOTES.md: 'holes = ' is missing"),
    (
        QUOTES,
        "    cap = the smaller of  s x s  and  floor((3 x g + 764 + 1,020 x s) / 765)\n",
        "docs/QUOTES.md: 'cap = ' is missing",
    ),
    (QUOTES, "    x = 2 x g - 255 - 1,530 x k - 2,040 x (N - s)\n", "docs/QUOTES.md: 'x = ' is missing"),
    (
        QUOTES,
        "    least holes    = floor((2 x the sum of the lows  + 255) / 510)\n",
        "docs/QUOTES.md: 'least holes = ' is missing",
    ),
    (QUOTES, "    5,853 / 510 = 11.5, so at least 12 holes\n", "docs/QUOTES.md: 6 worked lines where 7 belong"),
    (QUOTES, "49 of the 64 panels", "docs/QUOTES.md: 'In a map of side {} with all greys {}, {} of the {} panels"),
    (SPECIFICATION, "15.5 Floor.", "docs/SPECIFICATION.md: 'point 15.5' is missing"),
    (SPECIFICATION, "P9: of 4", "docs/SPECIFICATION.md at 17.5: 'P7: the shares of {} inside are"),
];

#[test]
fn what_is_missing_is_named() {
    for (path, text, expected) in TAKEN_OUT {
        let mut page = Page::read(path);
        assert!(page.text.contains(text), "{path} has no '{text}' that could be taken out");
        page.text = page.text.replacen(text, "", 1);
        let said = check(&page).unwrap_err();
        assert!(said.starts_with(expected), "without '{text}' it says: {said}");
    }
}

/// The places of the numbers of a text, and their lengths, without the decimal places; those of names, such as P2, and
/// of points apart.
fn numbers(text: &str) -> Vec<(usize, usize)> {
    let mut found = Vec::new();
    let mut at = 0;
    while let Some(next) = text[at..].find(|letter: char| letter.is_ascii_digit()) {
        at += next;
        let length = figure_length(&text[at..]);
        if !text[..at].ends_with("S ") && !text[..at].ends_with(char::is_alphabetic) {
            found.push((at, text[at..at + length].find('.').unwrap_or(length)));
        }
        at += length;
    }
    found
}

/// The page with the number at a place made one larger.
fn one_larger(page: &Page, (at, length): (usize, usize)) -> Page {
    let mut page = page.clone();
    let text = &page.text[at..at + length];
    let number: i128 = text.replace(',', "").parse().unwrap();
    let larger = if text.contains(',') { written(number + 1) } else { (number + 1).to_string() };
    page.text.replace_range(at..at + length, &larger);
    page
}

/// The points of SPECIFICATION.md of which every figure is read.
const WHOLE_POINTS: [&str; 19] = [
    "2.6", "3.1", "3.4", "3.5", "3.7", "8.3", "13.1", "15.3", "15.4", "15.5", "15.7", "15.8", "15.15", "17.1", "17.2",
    "17.3", "17.4", "17.5", "17.6",
];

/// Every figure of QUOTES.md is read, and every one of these points.
#[test]
fn each_figure_counts() {
    let quotes = Page::read(QUOTES);
    each_counts(&quotes, numbers(&quotes.text));
    let specification = Page::read(SPECIFICATION);
    for number in WHOLE_POINTS {
        let point = specification.point(number).unwrap();
        let start = specification.text.find(&point.text).unwrap();
        let places = numbers(&point.text).into_iter().map(|(at, length)| (start + at, length));
        each_counts(&specification, places.collect());
    }
}

/// Each of these numbers, made one larger, is noticed.
fn each_counts(page: &Page, places: Vec<(usize, usize)>) {
    assert!(!places.is_empty(), "{}: no figures", page.name);
    for place in places {
        let before = page.text[..place.0].lines().last().unwrap_or_default();
        let noticed = check(&one_larger(page, place)).is_err();
        assert!(noticed, "{}: no check reads the figure behind '{before}'", page.name);
    }
}
