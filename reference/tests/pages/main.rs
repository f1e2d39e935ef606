//! What docs/QUOTES.md and docs/SPECIFICATION.md say in figures, read from their own text and worked out: formulas,
//! worked lines, outputs, tables and plates are compared with the reference. A change to a figure or a formula fails
//! here, and so does one that is taken out.

mod facts;
mod formula;
mod number;
mod page;
mod plates;
mod quotes;
mod sentences;
mod specification;
mod workings;
mod wrong;

use std::sync::OnceLock;

use facts::Facts;
use page::{Checked, Page};

const QUOTES: &str = "docs/QUOTES.md";
const SPECIFICATION: &str = "docs/SPECIFICATION.md";

fn facts() -> &'static Facts {
    static FACTS: OnceLock<Facts> = OnceLock::new();
    FACTS.get_or_init(Facts::new)
}

/// All checks of a page. What is said names it.
fn check(page: &Page) -> Checked {
    let named = |said: String| if said.starts_with(&page.name) { said } else { page.fault(said) };
    checks(page).map_err(named)
}

/// A formula of the specification is written as that of the quotes.
fn checks(page: &Page) -> Checked {
    if page.name == QUOTES {
        return quotes::check(page, facts());
    }
    let formulas = quotes::formulas_of(&Page::read(QUOTES))?;
    plates::check(page)?;
    workings::check(page)?;
    specification::check(page, facts(), &formulas)
}

#[test]
fn quotes_hold() {
    check(&Page::read(QUOTES)).unwrap();
}

#[test]
fn the_specification_holds() {
    check(&Page::read(SPECIFICATION)).unwrap();
}
