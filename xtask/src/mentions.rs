//! What a statement mentions: the declarations that its words stand for, by the imports and the blocks around it.

use std::collections::HashSet;

use crate::antt::{module_path, Declaration, Import, Kind, Module};
use crate::rattle::{Function, Source};
use crate::text::tokens;
use crate::tree::Tree;

/// A declaration: its module and its place there.
pub type Place = (usize, usize);

/// The names that a text binds: `(a b : ..)`, `{a : ..}`, `λ a b.`, `let a`, and what a clause takes, `f a b =`.
fn bound(text: &str) -> HashSet<String> {
    let mut all = HashSet::new();
    for (at, _) in text.match_indices(['(', '{']) {
        let inside = &text[at + 1..];
        let Some(colon) = inside.find(" :") else { continue };
        if !inside[..colon].contains(['(', ')', '{', '}', ',', ';', '=']) {
            all.extend(inside[..colon].split_whitespace().map(|word| word.to_string()));
        }
    }
    for (at, c) in text.match_indices('λ') {
        let inside = &text[at + c.len()..];
        let end = inside.find(". ").or(inside.find(".\n")).unwrap_or(0);
        all.extend(tokens(&inside[..end]).iter().map(|word| word.to_string()));
    }
    for (at, word) in text.match_indices("let ") {
        all.extend(tokens(&text[at + word.len()..]).first().map(|word| word.to_string()));
    }
    all
}

/// The names that a definition's clauses take: those before the `=` of each line that begins a clause.
fn arguments(declaration: &Declaration) -> HashSet<String> {
    let begins = |line: &&String| tokens(line).first() == Some(&declaration.name.as_str());
    let heads = declaration.body.iter().filter(begins).map(|line| head(line));
    heads.flat_map(|head| tokens(head).into_iter().skip(1).map(|word| word.to_string()).collect::<Vec<_>>()).collect()
}

/// What stands before the first `=` of a line that is in no brackets.
fn head(line: &str) -> &str {
    let mut depth = 0;
    for (at, c) in line.char_indices() {
        match c {
            '(' | '{' => depth += 1,
            ')' | '}' => depth -= 1,
            '=' if depth == 0 => return &line[..at],
            _ => {}
        }
    }
    line
}

/// What a declaration mentions, in the order of its words; the parameters of the blocks around it belong to it.
pub fn of_declaration(tree: &Tree, place: Place) -> Vec<Place> {
    let module = &tree.modules[place.0];
    let declaration = &module.declarations[place.1];
    let blocks = module.blocks_around(declaration);
    let code = |line: &&String| !line.trim_start().starts_with("--");
    let headers = blocks.iter().flat_map(|block| module.blocks[*block].header.iter().filter(code));
    let text = headers.map(|line| format!("{line}\n")).collect::<String>() + &declaration.meaning();
    let mut hidden = bound(&text);
    hidden.extend(arguments(declaration));
    let find_whole = |word: &str| {
        if let Some(found) = in_blocks(module, place.1, &blocks, word) {
            return Some((place.0, found));
        }
        if hidden.contains(word) {
            return None;
        }
        in_file(module, place.1, word).map(|found| (place.0, found)).or_else(|| imported(tree, &module.imports, word))
    };
    let find = |word: &str| find_whole(word).or_else(|| find_whole(front(word)?));
    tokens(&text).into_iter().filter_map(find).filter(|found| *found != place).collect()
}

/// What a projection `front.field` is taken of.
fn front(word: &str) -> Option<&str> {
    word.split_once('.').map(|(front, _)| front).filter(|front| !front.is_empty())
}

/// What the contract of a function mentions.
pub fn of_function(tree: &Tree, source: &Source, function: &Function) -> Vec<Place> {
    let text: String = function.clauses.iter().map(|clause| format!("{}\n", clause.text)).collect();
    let find = |word: &str| imported(tree, &source.imports, word);
    tokens(&text).into_iter().filter_map(|word| find(word).or_else(|| find(front(word)?))).collect()
}

/// Whether a declaration of a module has this name, as its own or as that of a constructor.
fn is_named(module: &Module, at: usize, word: &str) -> bool {
    let declaration = &module.declarations[at];
    let own =
        declaration.name == word || (declaration.name.contains('◌') && declaration.name.trim_matches('◌') == word);
    declaration.kind != Kind::Ruleset && (own || declaration.constructors().contains(&word))
}

/// The last one of this name before a place, in a block that is around it.
fn in_blocks(module: &Module, before: usize, blocks: &[usize], word: &str) -> Option<usize> {
    let inside = |at: &usize| module.declarations[*at].block.is_some_and(|block| blocks.contains(&block));
    (0..before).rev().filter(inside).find(|at| is_named(module, *at, word))
}

/// The last one of this name before a place.
fn in_file(module: &Module, before: usize, word: &str) -> Option<usize> {
    (0..before).rev().find(|at| is_named(module, *at, word))
}

fn imported(tree: &Tree, imports: &[Import], word: &str) -> Option<Place> {
    let named =
        |import: &&Import, word: &str| import.names.iter().any(|name| name == word || name.trim_matches('◌') == word);
    if let Some(import) = imports.iter().find(|import| named(import, word)) {
        return public(tree, module_of(tree, import)?, word);
    }
    // behind the name of a module, or by the whole path
    let (front, name) = word.rsplit_once('.')?;
    if let Some(path) = front.strip_prefix("Rattle.") {
        let (crate_name, folder, module) = module_path(path)?;
        return public(tree, tree.module(crate_name, folder, module)?, name);
    }
    let import = imports.iter().find(|import| import.alias.as_deref().unwrap_or(&import.module) == front)?;
    public(tree, module_of(tree, import)?, name)
}

fn module_of(tree: &Tree, import: &Import) -> Option<usize> {
    tree.module(&import.crate_name, import.folder, &import.module)
}

fn public(tree: &Tree, module: usize, word: &str) -> Option<Place> {
    let declarations = tree.modules[module].declarations.len();
    in_file(&tree.modules[module], declarations, word).map(|found| (module, found))
}

#[cfg(test)]
mod tests {
    use super::*;

    #[test]
    fn heads_of_clauses() {
        assert_eq!(head("Reordered {A = A} (x ∷ xs) ys = ys ≡ []"), "Reordered {A = A} (x ∷ xs) ys ");
    }

    #[test]
    fn bound_names() {
        let names = bound("(a b : ℕ) → {c : List ℕ} → f (λ x y. x + y) (g d)\n  → let e = 1 in e ≡ a");
        let mut names: Vec<&str> = names.iter().map(|name| name.as_str()).collect();
        names.sort();
        assert_eq!(names, ["a", "b", "c", "e", "x", "y"]);
    }
}
