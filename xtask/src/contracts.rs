//! contracts: whether every public contract says all that it should. The calls for users are the functions that the
//! functions for C call (crates/rulmedei); each of both has no `requires`, an `ensures`, and in what it ensures the
//! `.new` of every `&mut` parameter and the `result`.

use crate::rattle::{calls, Function, Source};
use crate::text::tokens;
use crate::tree::Tree;

/// The crate of the functions for C.
const FOR_C: &str = "rulmedei";
/// How many there are. Whoever adds one writes the new number here.
const C_FUNCTIONS: usize = 18;
/// What turns a refusal into its number: a part, and no call for users.
const NO_CALLS: [(&str, &str); 1] = [("checks", "number_of")];

/// A function for C, with the call that it makes, each as (source, function).
pub struct Pair {
    pub outer: (usize, usize),
    pub inner: (usize, usize),
}

pub fn at(tree: &Tree, place: (usize, usize)) -> (&Source, &Function) {
    let source = &tree.sources[place.0];
    (source, &source.functions[place.1])
}

/// The functions for C in their order, each with its call.
pub fn pairs(tree: &Tree) -> Result<Vec<Pair>, Vec<String>> {
    let mut all = Vec::new();
    let mut wrong = Vec::new();
    for (s, source) in tree.sources.iter().enumerate().filter(|(_, source)| source.crate_name == FOR_C) {
        for (f, function) in source.functions.iter().enumerate().filter(|(_, function)| function.for_c) {
            let place = format!("{}:{}: {}", source.path, function.line, function.name);
            let called: Vec<_> =
                calls(&function.body).into_iter().filter(|(a, b)| !NO_CALLS.contains(&(a, b))).collect();
            match &called[..] {
                [(a, b)] => match tree.function(a, b) {
                    Some(inner) => all.push(Pair { outer: (s, f), inner }),
                    None => wrong.push(format!("{place} calls {a}::{b}, which is nowhere")),
                },
                _ => wrong.push(format!("{place} makes {} calls, not 1", called.len())),
            }
        }
    }
    if wrong.is_empty() {
        Ok(all)
    } else {
        Err(wrong)
    }
}

/// What is wrong with a contract, a line for each fault.
fn faults(function: &Function) -> Vec<String> {
    let mut wrong = Vec::new();
    let all = |word: &str| function.clauses.iter().filter(|clause| clause.word == word).collect::<Vec<_>>();
    for clause in all("requires") {
        let asked = clause.text.split_whitespace().collect::<Vec<_>>().join(" ");
        wrong.push(format!("asks something of its caller: requires {{ {asked} }}"));
    }
    let said = all("ensures");
    if said.is_empty() {
        wrong.push("has no `ensures`".to_string());
        return wrong;
    }
    if let Some(clause) = function.clauses.iter().find(|clause| !["requires", "ensures"].contains(&&*clause.word)) {
        wrong.push(format!("has an unknown part, `{}`", clause.word));
    }
    let facts: Vec<&str> = said.iter().map(|clause| clause.text.as_str()).collect();
    for parameter in function.parameters.iter().filter(|parameter| parameter.kind.starts_with("&mut")) {
        if !facts.iter().any(|fact| says_left(fact, &parameter.name)) {
            wrong.push(format!("says nothing of what it leaves in `{}`: no `{0}.new`", parameter.name));
        }
    }
    if function.returns.is_some() && !facts.iter().any(|fact| says_returned(fact)) {
        wrong.push("says nothing of what it returns: no `result`".to_string());
    }
    wrong
}

/// Whether a word is `front`, or a part of it, as `front.field`.
fn is_part(word: &str, front: &str) -> bool {
    word.strip_prefix(front).is_some_and(|rest| rest.is_empty() || rest.starts_with('.'))
}

/// Whether a fact speaks of a buffer after the call.
fn says_left(fact: &str, name: &str) -> bool {
    let plain = fact.replace(['«', '»'], "");
    tokens(&plain).iter().any(|word| is_part(word, &format!("{name}.new")))
}

/// Whether a fact speaks of the result, otherwise than as the name of a field.
fn says_returned(fact: &str) -> bool {
    let words = tokens(fact);
    let is_field = |i: usize| words.get(i + 1) == Some(&"=");
    words.iter().enumerate().any(|(i, word)| is_part(word, "result") && !is_field(i))
}

/// The whole check; the lines to print, or those of what is wrong.
pub fn check(tree: &Tree, list: bool) -> Result<Vec<String>, Vec<String>> {
    let pairs = pairs(tree)?;
    let mut wrong = Vec::new();
    let mut inner: Vec<(usize, usize)> = pairs.iter().map(|pair| pair.inner).collect();
    inner.sort();
    inner.dedup();
    let outer: Vec<(usize, usize)> = pairs.iter().map(|pair| pair.outer).collect();
    for place in inner.iter().chain(&outer) {
        let (source, function) = at(tree, *place);
        let here = format!("{}:{}: {}", source.path, function.line, function.name);
        if !function.public {
            wrong.push(format!("{here} is not public"));
        }
        wrong.extend(faults(function).into_iter().map(|fault| format!("{here} {fault}")));
    }
    for (found, what) in [(outer.len(), "functions for C"), (inner.len(), "calls that they make")] {
        if found != C_FUNCTIONS {
            let file = "xtask/src/contracts.rs";
            wrong.push(format!("crates/{FOR_C}/src: {found} {what}; {C_FUNCTIONS} are expected ({file})"));
        }
    }
    if !wrong.is_empty() {
        return Err(wrong);
    }
    let mut lines: Vec<String> = if list { pairs.iter().map(|pair| said(tree, pair)).collect() } else { vec![] };
    if list {
        lines.push(format!("public beside the calls: {}", helpers(tree, &inner).join(", ")));
    }
    lines.push(format!(
        "contracts: {} functions for C and {} calls, none with a condition, each says all that it returns and leaves",
        outer.len(),
        inner.len()
    ));
    Ok(lines)
}

/// The public functions on the floor of calls that no function for C calls: they may ask something of their callers.
fn helpers(tree: &Tree, inner: &[(usize, usize)]) -> Vec<String> {
    let mut all = Vec::new();
    for (s, source) in tree.sources.iter().enumerate().filter(|(_, one)| tree.floor(&one.crate_name) == "calls") {
        let public = source.functions.iter().enumerate().filter(|(_, one)| one.public);
        let others = public.filter(|(f, _)| !inner.contains(&(s, *f)));
        all.extend(others.map(|(_, function)| format!("{}::{}", source.crate_name, function.name)));
    }
    all
}

fn said(tree: &Tree, pair: &Pair) -> String {
    let (source, call) = at(tree, pair.inner);
    format!("{} calls {}::{}", at(tree, pair.outer).1.name, source.crate_name, call.name)
}

#[cfg(test)]
mod tests {
    use super::*;
    use crate::rattle::parse;

    fn faults_of(contract: &str) -> usize {
        let text = format!("// A crate.\n\npub fn f(a: u32, list: &mut [u32]) -> u32\n{contract}{{\n    1\n}}\n");
        faults(&parse("one", "lib.rt", &text).unwrap().functions[0]).len()
    }

    #[test]
    fn what_a_contract_must_say() {
        let whole = "    ensures { record { code = result; list = list.new } ≡ f a }\n";
        assert_eq!(faults_of(whole), 0);
        assert_eq!(faults_of(&whole.replace("list.new", "«list».new")), 0);
        assert_eq!(faults_of(&whole.replace("list.new", "list.new.items")), 0);
        assert_eq!(faults_of(&format!("    requires {{ a ≤ 128 }}\n{whole}")), 1);
        assert_eq!(faults_of("    ensures { result ≡ f a }\n"), 1);
        assert_eq!(faults_of("    ensures { record { result = list.new } ≡ f a }\n"), 1);
        assert_eq!(faults_of("    ensures { record { code = result; list = list.old } ≡ f a }\n"), 1);
        assert_eq!(faults_of(""), 1);
        assert_eq!(faults_of("    ensures code { result ≡ f a }\n    ensures list { list.new ≡ g a }\n"), 0);
        assert_eq!(faults_of("    ensures code { result ≡ f a }\n    ensures list { list.newer ≡ g a }\n"), 1);
    }
}
