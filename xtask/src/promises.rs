//! promises: docs/PROMISES.md, one page with the text of every promise. It has the contracts of the calls and of the
//! functions for C; for each point of section 15 of the specification the laws and contracts that cite it; and the laws
//! that README.md, docs/TRUST.md and docs/SPECIFICATION.md name. With each goes every definition, record and
//! abbreviation that it mentions, and what these mention, but for those of crates/definition, which plates compute.

use std::collections::{BTreeMap, BTreeSet, HashMap};
use std::path::Path;

use crate::antt::{Declaration, Folder, Kind, Module};
use crate::contracts;
use crate::mentions::{self, Place};
use crate::pages;
use crate::text::{read, wrapped};
use crate::tree::Tree;

pub const PAGE: &str = "docs/PROMISES.md";
/// The pages that name laws.
const NAMING: [&str; 3] = ["README.md", "docs/TRUST.md", "docs/SPECIFICATION.md"];
/// The section of the specification that promises.
const PROMISES: usize = 15;
/// The crate whose definitions are pinned by computed plates, so that they need not stand on the page.
const COMPUTED: &str = "definition";
/// Its table with P1 to P12, the plates to work by hand: its rows do stand on the page.
const HAND: &str = "plates";
/// The short name of the last section.
const LAST: &str = "the end";
/// The floors whose laws the pages name.
const READ_FLOORS: [&str; 4] = ["definition", "laws", "calls", "joined"];
/// The fewest declarations and contracts that the page may have: a reader that finds nothing fails.
const LEAST: usize = 300;

const HEAD: &str = "# What is promised, word for word

`tools/promises` writes this page from the sources, and the gate compares it (`tools/promises
--check`). It has the text of every promise as the prover reads it. A proof shows that a statement
holds, not that it says enough: a weaker statement would be proved as well, and nothing else would
notice. So whoever changes what is promised changes this page, and a reader of the change sees it.

Proofs are left out. Of a law there is its statement, of a function its contract, of a record, a
definition or an abbreviation all of it. What a statement mentions stands with it, or further up
where it was mentioned first. Definitions of `crates/definition` are not here, but for the table of
P1 to P12: `docs/TRUST.md` lists them, and the plates compute them. A line `module _ (..) where`
gives its parameters to all that is indented below it.
";

/// What the page has to show: a declaration or a function, with how it is called in a list.
#[derive(Clone, Copy, PartialEq, Eq, Hash, PartialOrd, Ord)]
enum Item {
    Declaration(Place),
    Function((usize, usize)),
}

struct Writer<'a> {
    tree: &'a Tree,
    page: String,
    /// where each item was printed, by the heading's short name
    printed: HashMap<Item, String>,
}

/// The whole page.
pub fn page(tree: &Tree, root: &Path) -> Result<String, Vec<String>> {
    let one = |why: String| vec![why];
    let mut writer = Writer { tree, page: HEAD.to_string(), printed: HashMap::new() };
    let pairs = contracts::pairs(tree)?;
    let inner: Vec<Item> = pairs.iter().map(|pair| Item::Function(pair.inner)).collect();
    let outer: Vec<Item> = pairs.iter().map(|pair| Item::Function(pair.outer)).collect();
    writer.section("The calls", "the calls", &inner, "");
    writer.section("The functions for C", "the functions for C", &outer, "");
    for (number, title) in pages::points(root, PROMISES).map_err(one)? {
        let (items, note) = cited(tree, &number);
        if items.is_empty() && note.is_empty() {
            return Err(one(format!("docs/SPECIFICATION.md: S {number} is promised, and nothing cites it")));
        }
        writer.section(&format!("S {number} {title}"), &format!("S {number}"), &items, &note);
    }
    writer.section("Further laws that the pages name", LAST, &named(tree, root).map_err(one)?, "");
    if writer.printed.len() < LEAST {
        return Err(one(format!("{PAGE}: {} texts only; at least {LEAST} are expected", writer.printed.len())));
    }
    Ok(writer.page)
}

/// What cites a point; and a note on sources that cite it as a whole.
fn cited(tree: &Tree, number: &str) -> (Vec<Item>, String) {
    let mut items = Vec::new();
    for (m, module) in tree.modules.iter().enumerate().filter(|(_, module)| module.crate_name != COMPUTED) {
        let whole = module.cites.iter().any(|point| point == number);
        for (d, declaration) in module.declarations.iter().enumerate() {
            if declaration.cites.iter().any(|(point, _)| point == number) || (whole && counts(declaration)) {
                items.push(Item::Declaration((m, d)));
            }
        }
    }
    let mut note = String::new();
    for (s, source) in tree.sources.iter().enumerate() {
        if source.cites.iter().any(|point| point == number) {
            note = format!("All contracts of `crates/{}`, above.", source.crate_name);
        }
        for (f, function) in source.functions.iter().enumerate() {
            if function.cites.iter().any(|point| point == number) {
                items.push(Item::Function((s, f)));
            }
        }
    }
    (items, note)
}

/// Whether the definitions of a module are pinned by rows that are computed, or are such rows.
fn computed(module: &Module) -> bool {
    module.folder == Folder::Specs && (module.crate_name == COMPUTED || module.name.ends_with("Plates"))
}

/// Whether a declaration is one of those that a module shows to others.
fn counts(declaration: &Declaration) -> bool {
    declaration.public && declaration.kind != Kind::Ruleset
}

/// What the pages name in backticks: a law or definition by its name, and a module by its file, `Clauses.antt`, or with
/// its crate, `stages/Promise`.
fn named(tree: &Tree, root: &Path) -> Result<Vec<Item>, String> {
    let mut names = BTreeSet::new();
    for page in NAMING {
        names.extend(pages::quoted(&read(&root.join(page))?).into_iter().map(|one| one.text));
    }
    // a name such as `Quarters` is that of a module of definitions
    names.retain(|name| tree.module(COMPUTED, Folder::Specs, name).is_none());
    let mut items = BTreeSet::new();
    for (m, module) in tree.modules.iter().enumerate().filter(|(_, one)| is_read(tree, one)) {
        let whole = is_module_named(module, &names) && !computed(module);
        for (d, declaration) in module.declarations.iter().enumerate().filter(|(_, one)| counts(one)) {
            let law = names.contains(&declaration.name) && (declaration.kind == Kind::Plain || !computed(module));
            let hand = module.crate_name == COMPUTED && declaration.name == HAND;
            if whole || law || hand {
                items.insert(Item::Declaration((m, d)));
            }
        }
    }
    Ok(items.into_iter().collect())
}

/// Whether the laws of a module are for readers: those of parts are for proofs of code, those of `integers` for all.
fn is_read(tree: &Tree, module: &Module) -> bool {
    READ_FLOORS.contains(&tree.floor(&module.crate_name)) && module.crate_name != "integers"
}

fn is_module_named(module: &Module, names: &BTreeSet<String>) -> bool {
    let file = format!("{}.antt", module.name);
    let folder = module.folder.name();
    let ways = [format!("{folder}/{file}"), format!("{}/{}", module.crate_name, module.name), file];
    ways.iter().any(|way| names.contains(way))
}

impl Writer<'_> {
    /// A section with these statements and all that they mention, each unless it was printed before.
    fn section(&mut self, title: &str, short: &str, items: &[Item], note: &str) {
        let new = self.needed(items);
        let old: Vec<Item> = items.iter().filter(|item| self.printed.contains_key(item)).copied().collect();
        self.page.push_str(&format!("\n## {title}\n"));
        let mut words: Vec<String> = Vec::new();
        if !note.is_empty() {
            words.push(note.to_string());
        }
        if short != LAST {
            words.extend(self.above(&old));
        }
        if !words.is_empty() {
            self.page.push('\n');
            self.page.push_str(&wrapped(&words.join(" "), "", ""));
        }
        self.functions(&new);
        self.declarations(&new);
        for item in new {
            self.printed.insert(item, short.to_string());
        }
    }

    /// The statements and what they mention, without what is printed already.
    fn needed(&self, items: &[Item]) -> BTreeSet<Item> {
        let mut new = BTreeSet::new();
        let mut next: Vec<Item> = items.to_vec();
        while let Some(item) = next.pop() {
            if self.printed.contains_key(&item) || !new.insert(item) {
                continue;
            }
            let mentioned = self.mentioned(item).into_iter().filter(|place| !computed(&self.tree.modules[place.0]));
            next.extend(mentioned.map(Item::Declaration));
        }
        new
    }

    fn mentioned(&self, item: Item) -> Vec<Place> {
        match item {
            Item::Declaration(place) => mentions::of_declaration(self.tree, place),
            Item::Function(place) => {
                let (source, function) = contracts::at(self.tree, place);
                mentions::of_function(self.tree, source, function)
            }
        }
    }

    /// Where statements that were printed before stand.
    fn above(&self, items: &[Item]) -> Vec<String> {
        let mut places: BTreeMap<&str, Vec<String>> = BTreeMap::new();
        for item in items {
            places.entry(&self.printed[item]).or_default().push(format!("`{}`", self.name(*item)));
        }
        places.iter().map(|(place, names)| format!("Above, under {place}: {}.", names.join(", "))).collect()
    }

    fn name(&self, item: Item) -> String {
        match item {
            Item::Declaration((m, d)) => self.tree.modules[m].declarations[d].name.clone(),
            Item::Function(place) => {
                let (source, function) = contracts::at(self.tree, place);
                format!("{}::{}", source.crate_name, function.name)
            }
        }
    }

    fn functions(&mut self, items: &BTreeSet<Item>) {
        let mut last = "";
        for item in items {
            let Item::Function(place) = item else { continue };
            let (source, function) = contracts::at(self.tree, *place);
            if source.path != last {
                self.page.push_str(&format!("\n`{}`:\n", source.path));
            }
            last = &source.path;
            self.page.push('\n');
            for line in function.comment.iter().chain(&function.head) {
                self.page.push_str(&code(line));
            }
        }
    }

    fn declarations(&mut self, items: &BTreeSet<Item>) {
        let mut last = None;
        let mut around: Vec<usize> = Vec::new();
        for item in items {
            let Item::Declaration((m, d)) = *item else { continue };
            let module = &self.tree.modules[m];
            let declaration = &module.declarations[d];
            if last != Some(m) {
                self.page.push_str(&format!("\n`{}`:\n", module.path));
                around.clear();
            }
            last = Some(m);
            let blocks = module.blocks_around(declaration);
            let same = blocks.iter().zip(&around).take_while(|(a, b)| a == b).count();
            for block in &blocks[same..] {
                self.page.push('\n');
                module.blocks[*block].header.iter().for_each(|line| self.page.push_str(&code(line)));
            }
            around = blocks;
            self.page.push('\n');
            let body = if declaration.shows_body() { &declaration.body[..] } else { &[] };
            for line in declaration.comment.iter().chain(&declaration.statement).chain(body) {
                self.page.push_str(&code(line));
            }
        }
    }
}

/// A line of code on the page.
fn code(line: &str) -> String {
    if line.is_empty() {
        return "\n".to_string();
    }
    format!("    {line}\n")
}

/// Writes the page.
pub fn write(tree: &Tree, root: &Path) -> Result<Vec<String>, Vec<String>> {
    let page = page(tree, root)?;
    std::fs::write(root.join(PAGE), &page).map_err(|error| vec![format!("{PAGE}: {error}")])?;
    Ok(vec![summary(&page)])
}

/// Compares the page.
pub fn check(tree: &Tree, root: &Path) -> Result<Vec<String>, Vec<String>> {
    let (old, new) = (read(&root.join(PAGE)).map_err(|why| vec![why])?, page(tree, root)?);
    if old == new {
        return Ok(vec![summary(&new)]);
    }
    let mut wrong = vec![format!("{PAGE} is not what the sources say; tools/promises writes it anew")];
    let (before, after) = (texts(&old), texts(&new));
    for (text, file) in after.iter().filter(|one| !before.contains(one)) {
        wrong.push(format!("{file} has another text than the page, or one more: `{}`", declared(text)));
    }
    for (text, file) in before.iter().filter(|one| !after.contains(one)) {
        wrong.push(format!("{file} no longer has a text of the page: `{}`", declared(text)));
    }
    let at = old.lines().zip(new.lines()).take_while(|(a, b)| a == b).count();
    wrong.truncate(12);
    wrong.push(format!("{PAGE}:{}: here the page differs first", at + 1));
    Err(wrong)
}

/// The texts of a page, each with its file: paragraphs of code.
fn texts(page: &str) -> Vec<(String, String)> {
    let mut all = Vec::new();
    let mut file = String::new();
    for paragraph in page.split("\n\n") {
        if paragraph.trim_start_matches('\n').starts_with("    ") {
            all.push((paragraph.trim_matches('\n').to_string(), file.clone()));
        } else {
            file = paragraph.trim().trim_matches(['`', ':']).to_string();
        }
    }
    all
}

/// The name that a text of the page declares.
fn declared(text: &str) -> String {
    let is_code = |line: &&str| !line.trim_start().starts_with("--") && !line.trim_start().starts_with("//");
    let line = text.lines().find(is_code).unwrap_or("").trim();
    let skipped = ["pub", "abbrev", "unfoldable", "record", "data", "extern", "\"C\"", "fn"];
    let word = line.split([' ', '(']).find(|word| !skipped.contains(word)).unwrap_or("");
    word.to_string()
}

fn summary(page: &str) -> String {
    let files: BTreeSet<String> = texts(page).into_iter().map(|(_, file)| file).collect();
    format!("promises: {} texts of {} files on {PAGE}", texts(page).len(), files.len())
}
