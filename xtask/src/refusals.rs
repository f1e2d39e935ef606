//! refusals: after `tools/tried`, whether each wrong program and each wrong statement was refused for its own sake.
//! A must-fail edit changes code (`file: src/..`) or a statement (`file: specs/..` or `file: proofs/MODULE.antt`),
//! never a proof.
//! - An edit of code names every function that it makes wrong, by a line 'wrong: NAME in FUNCTION'. rt refuses the edit
//!   if one function fails. Here just the named ones must fail by themselves, not because a function that they call
//!   fails, and each at a fact, not only because its proof file no longer fits the code: a changed constant gives a
//!   fact another name.
//! - An edit of definitions or laws makes one wrong statement, and its file has the name. It must be refused because
//!   a fact fails: every error that does not only follow from another one is of a kind that says so (`FACT_FAILS`), and
//!   stands in a proof, or where a definition that was not edited hands on a fact. One in a statement, or in what was
//!   edited, says that the text means nothing, as with a number where a list is expected; and no name may be unknown.

use std::path::Path;

use crate::antt::{self, Module, Part};
use crate::text::read;

/// How a message begins, behind the name of what is proved, that says: this fact is not proved.
const FACT_FAILS: [&str; 9] = [
    // what is shown is something else than what is stated
    "expected type `",
    "computed as far as they go, the two types ",
    "as printed, the two types ",
    // numbers for which it is false
    "`omega`: the goal does not follow from what it read",
    "`omega`: the part `",
    // nothing that there is shows it
    "`search`: no proof of `",
    // a law asks for more than there is
    "give a proof of that as the last argument",
    // an equation has nothing to rewrite
    "`rw`: no occurrence of the path's left endpoint in the goal",
    "`rw`: no occurrence of the path's left endpoint in the hypothesis's type",
];
/// The same, in the middle of a message: the two sides differ, and a definition would have to be unfolded.
const FACT_FAILS_WITHIN: &str = " do not unfold here: if the body needs them";
/// What only follows from another error.
const FOLLOWS: [&str; 3] = ["was not admitted", " declaration that depends on `", " declarations that depend on `"];
/// What says of a proof file that it names something which is no longer there.
const NO_LONGER_NAMED: [&str; 2] = ["that can be named from here", " has no field `"];
/// How a check ends that refuses a crate.
const REFUSES: &str = "logic=not-proved";

/// What an edit file says.
struct Edit {
    name: String,
    crate_name: String,
    file: String,
    /// each pair of an old and a new text
    changes: Vec<(String, String)>,
    /// the functions that it makes wrong, with the names of the impostors
    wrong: Vec<(String, String)>,
}

/// A place that a log reports, and what it says there.
struct Report {
    file: String,
    line: usize,
    message: String,
}

/// How many wrong functions and statements there are.
#[derive(Default)]
struct Counts {
    functions: usize,
    statements: usize,
}

/// The whole check.
pub fn check(root: &Path) -> Result<Vec<String>, Vec<String>> {
    let mut wrong = Vec::new();
    let mut counts = Counts::default();
    let files = edits(root).map_err(|why| vec![why])?;
    for path in &files {
        match one(root, path, &mut counts) {
            Ok(faults) => wrong.extend(faults),
            Err(why) => wrong.push(why),
        }
    }
    if files.is_empty() {
        wrong.push("crates: no must-fail edit is there".to_string());
    }
    if !wrong.is_empty() {
        return Err(wrong);
    }
    Ok(vec![format!(
        "refusals: {} wrong functions, {} wrong statements in {} edits; each refused for its own sake",
        counts.functions,
        counts.statements,
        files.len()
    )])
}

/// The files of all edits, in order.
fn edits(root: &Path) -> Result<Vec<String>, String> {
    let mut all = Vec::new();
    for folder in entries(&root.join("crates"))? {
        let inside = format!("crates/{folder}/must-fail");
        if root.join(&inside).is_dir() {
            let names = entries(&root.join(&inside))?.into_iter().filter(|name| name.ends_with(".edit"));
            all.extend(names.map(|name| format!("{inside}/{name}")));
        }
    }
    Ok(all)
}

fn entries(folder: &Path) -> Result<Vec<String>, String> {
    let list = std::fs::read_dir(folder).map_err(|error| format!("{}: {error}", folder.display()))?;
    let mut names: Vec<String> = list.flatten().map(|entry| entry.file_name().to_string_lossy().into()).collect();
    names.sort();
    Ok(names)
}

/// What is wrong with one edit and its log.
fn one(root: &Path, path: &str, counts: &mut Counts) -> Result<Vec<String>, String> {
    let edit = parse(path, &read(&root.join(path))?)?;
    let on_code = edit.file.starts_with("src/");
    if !on_code && !has_statements(&edit.file) {
        return Ok(vec![format!("{path}: changes {}; only code (src/) and statements may be wrong", edit.file)]);
    }
    let log = format!("target/must-fail/{}/{}/.log", edit.crate_name, edit.name);
    let Ok(log) = read(&root.join(&log)) else { return Ok(vec![format!("{path}: was not tried: {log} is not there")]) };
    let mut faults = Vec::new();
    if !edit.name.chars().all(|c| c.is_ascii_alphanumeric() || "_-.".contains(c)) {
        faults.push("rt takes no edit of such a name: only letters, digits, _, - and . may stand in it".to_string());
    }
    if !log.lines().any(|line| line.starts_with(REFUSES)) {
        faults.push(format!("the log does not end in {REFUSES}"));
    }
    if log.lines().any(|line| line.contains(": error: ") && line.contains(" is not in scope")) {
        faults.push("a name is not in scope".to_string());
    }
    if on_code {
        counts.functions += edit.wrong.len();
        faults.extend(code_faults(&edit, &log));
    } else {
        counts.statements += 1;
        faults.extend(statement_faults(root, &edit, &log)?);
    }
    Ok(faults.into_iter().map(|fault| format!("{path}: {fault}")).collect())
}

/// Whether a file of a crate has definitions and laws: those of `specs`, and right in `proofs`, where the proofs of
/// functions have folders of their own.
fn has_statements(file: &str) -> bool {
    file.starts_with("specs/") || file.strip_prefix("proofs/").is_some_and(|rest| !rest.contains('/'))
}

fn parse(path: &str, text: &str) -> Result<Edit, String> {
    let mut parts = path.trim_start_matches("crates/").split('/');
    let crate_name = parts.next().unwrap_or("").to_string();
    let name = parts.next_back().unwrap_or("").trim_end_matches(".edit").to_string();
    let mut edit = Edit { name, crate_name, file: String::new(), changes: Vec::new(), wrong: Vec::new() };
    let mut old = None;
    for line in text.lines() {
        if let Some(file) = line.strip_prefix("file: ") {
            if !edit.file.is_empty() {
                return Err(format!("{path}: changes two files"));
            }
            edit.file = file.trim().to_string();
        } else if let Some(text) = line.strip_prefix("old: ") {
            old = Some(text.to_string());
        } else if let Some(text) = line.strip_prefix("new:") {
            let before = old.take().ok_or(format!("{path}: a new text without an old one"))?;
            edit.changes.push((before, text.strip_prefix(' ').unwrap_or(text).to_string()));
        } else if let Some((name, function)) = line.strip_prefix("wrong: ").and_then(|line| line.split_once(" in ")) {
            edit.wrong.push((name.to_string(), function.to_string()));
        }
    }
    if edit.file.is_empty() || edit.changes.is_empty() {
        return Err(format!("{path}: changes nothing"));
    }
    Ok(edit)
}

/// The functions of a crate that its check refused by themselves: `not proved` says so of those with a proof file,
/// `did not prove` of those whose proof the prover makes.
fn refused<'a>(crate_name: &str, log: &'a str) -> Vec<&'a str> {
    let head = format!("fn {crate_name}::");
    let lines = log.lines().filter(|line| !line.contains("; it calls ")).filter_map(|line| line.strip_prefix(&head));
    let mut all: Vec<&str> = lines
        .filter_map(|line| line.split_once(": "))
        .filter(|(_, said)| *said == "not proved" || (said.starts_with("no proof: ") && said.contains("did not prove")))
        .map(|(name, _)| name)
        .collect();
    all.sort();
    all
}

fn code_faults(edit: &Edit, log: &str) -> Vec<String> {
    if edit.wrong.is_empty() {
        return vec!["names no function that it makes wrong".to_string()];
    }
    let mut wrong: Vec<&str> = edit.wrong.iter().map(|(_, function)| function.as_str()).collect();
    wrong.sort();
    let failed = refused(&edit.crate_name, log);
    if wrong != failed {
        return vec![format!("wrong are {} but refused are {}", wrong.join(" "), failed.join(" "))];
    }
    let unfit = wrong.iter().filter(|function| !fails_at_fact(&edit.crate_name, function, log));
    unfit.map(|function| format!("of `{function}` no fact fails: a proof file no longer fits the code")).collect()
}

/// Whether the check found a fact of a function that is not proved: an answer of its proof files that does not hold, or
/// a fact without an answer, of which a note speaks before the line on the function.
fn fails_at_fact(crate_name: &str, function: &str, log: &str) -> bool {
    // a method `Type::name` has its proof in `Type/name`, or in `Type/+name` where it calls itself
    let (of, name) =
        function.rsplit_once("::").map_or((String::new(), function), |(of, name)| (format!("{of}/"), name));
    let files = [format!("/proofs/{of}{name}/"), format!("/proofs/{of}+{name}/")];
    let mut noted = false;
    for line in log.lines() {
        let is_named = !NO_LONGER_NAMED.iter().any(|words| line.contains(words));
        let is_here = files.iter().any(|files| line.split(':').next().unwrap_or("").contains(files.as_str()));
        if line.contains(": error: ") && is_here && is_named && !follows(line) {
            return true;
        }
        if let Some(rest) = line.strip_prefix("fn ") {
            let is_it = rest.starts_with(&format!("{crate_name}::{function}: "));
            if is_it && (noted || rest.contains("did not prove")) {
                return true;
            }
            noted = false;
        }
        noted |= line.starts_with("note: ") && line.contains(": it is not proved that ");
    }
    false
}

/// Whether a line only follows from another error.
fn follows(line: &str) -> bool {
    FOLLOWS.iter().any(|words| line.contains(words))
}

/// The errors of a log, but for those that only follow from another.
fn reports(log: &str) -> Vec<Report> {
    let mut all = Vec::new();
    for line in log.lines().filter(|line| line.contains(": error: ") && !follows(line)) {
        let (place, message) = line.split_once(": error: ").unwrap_or(("", line));
        let mut parts = place.rsplitn(3, ':').skip(1);
        let number = parts.next().and_then(|number| number.parse().ok()).unwrap_or(0);
        let path = parts.next().unwrap_or(place);
        let inner = path.find("/specs/").or(path.find("/proofs/")).map_or(path, |at| &path[at + 1..]);
        all.push(Report { file: inner.to_string(), line: number, message: message.to_string() });
    }
    all
}

/// A file of the crate as the edit makes it. An edit changes texts within lines, so that each line keeps its number.
fn edited(root: &Path, edit: &Edit, file: &str) -> Result<Module, String> {
    let path = format!("crates/{}/{file}", edit.crate_name);
    let mut text = read(&root.join(&path))?;
    for (old, new) in edit.changes.iter().filter(|_| edit.file == file) {
        if text.matches(old.as_str()).count() != 1 {
            return Err(format!("{path}: an old text of {} stands there other than once: {old}", edit.name));
        }
        text = text.replacen(old.as_str(), new, 1);
    }
    antt::parse(&edit.crate_name, file, &path, &text)
}

fn statement_faults(root: &Path, edit: &Edit, log: &str) -> Result<Vec<String>, String> {
    let changed = changed(root, edit)?;
    let mut faults = Vec::new();
    for (part, name, line) in &changed {
        if *part == Part::Proof {
            faults.push(format!("changes the proof of `{name}` ({}:{line}), not a statement", edit.file));
        }
    }
    let mut proofs = 0;
    for Report { file, line, message } in reports(log) {
        let part = if has_statements(&file) {
            let module = edited(root, edit, &file)?;
            let (part, name) = module.part(line);
            let is_edited = file == edit.file && changed.iter().any(|(_, other, _)| other == name);
            let hands_on = part == Part::Definition && !is_edited && is_of_facts(&message);
            if part != Part::Proof && !hands_on {
                faults.push(format!("{file}:{line}: the text of `{name}` is ill-typed by itself: {message}"));
                continue;
            }
            part
        } else if file.starts_with("proofs/") {
            Part::Proof
        } else {
            faults.push(format!("an error elsewhere: {file}:{line}: {message}"));
            continue;
        };
        if !says_fact_fails(&message) {
            faults.push(format!("{file}:{line}: no known kind of a fact that fails: {message}"));
        }
        proofs += usize::from(part == Part::Proof);
    }
    if proofs == 0 && faults.is_empty() {
        faults.push("the log shows no proof that fails by itself".to_string());
    }
    Ok(faults)
}

/// What an edit of a file of laws changes: part, name and line.
fn changed(root: &Path, edit: &Edit) -> Result<Vec<(Part, String, usize)>, String> {
    let path = format!("crates/{}/{}", edit.crate_name, edit.file);
    let text = read(&root.join(&path))?;
    let module = antt::parse(&edit.crate_name, &edit.file, &path, &text)?;
    let line_of = |old: &str| text.lines().position(|line| line.contains(old)).map_or(0, |at| at + 1);
    Ok(edit
        .changes
        .iter()
        .map(|(old, _)| {
            let line = line_of(old);
            let (part, name) = module.part(line);
            (part, name.to_string(), line)
        })
        .collect())
}

/// Whether the types that a message shows are facts: it compares or equates something.
fn is_of_facts(message: &str) -> bool {
    message.split('`').skip(1).step_by(2).any(|type_shown| type_shown.contains(['≡', '≤', '<', '≢', '↔']))
}

fn says_fact_fails(message: &str) -> bool {
    // behind the name of what is proved
    let said = message.split_once("`: ").map_or(message, |(_, said)| said);
    FACT_FAILS.iter().any(|kind| said.starts_with(kind)) || said.contains(FACT_FAILS_WITHIN)
}

#[cfg(test)]
mod tests {
    use super::*;

    #[test]
    fn files_of_statements() {
        assert!(has_statements("specs/A.antt") && has_statements("proofs/A.antt"));
        assert!(!has_statements("proofs/a/Answers.antt") && !has_statements("src/lib.rt"));
    }

    #[test]
    fn functions_refused_by_themselves() {
        let log =
            "fn one::a: not proved\nfn one::b: no proof: it did not prove `x`\nfn one::c: not proved; it calls a\n";
        assert_eq!(refused("one", log), ["a", "b"]);
    }

    #[test]
    fn facts_of_a_function() {
        let unnamed = "./proofs/a/Answers.antt:1:2: error: `x-1`: no `x-1` that can be named from here\n";
        let last = "fn one::b: proved\nfn one::a: not proved\n";
        assert!(!fails_at_fact("one", "a", &format!("{unnamed}{last}")));
        let noted = "note: src/lib.rt:1:2: it is not proved that it holds (`x-2`)\n";
        assert!(fails_at_fact("one", "a", &format!("{unnamed}fn one::b: proved\n{noted}fn one::a: not proved\n")));
        assert!(!fails_at_fact("one", "a", &format!("{unnamed}{noted}{last}")));
        let fails = "./proofs/+a/Answers.antt:1:2: error: `y`: `search`: no proof of `z`\n";
        assert!(fails_at_fact("one", "a", &format!("{unnamed}{fails}{last}")));
        assert!(!fails_at_fact("one", "aa", &format!("{fails}fn one::aa: not proved\n")));
        let method = "./proofs/Type/+a/Answers.antt:1:2: error: `y`: `search`: no proof of `z`\n";
        assert!(fails_at_fact("one", "Type::a", &format!("{method}fn one::Type::a: not proved\n")));
        assert!(!fails_at_fact("one", "Type::a", &format!("{fails}fn one::Type::a: not proved\n")));
    }

    #[test]
    fn places_in_a_log() {
        let log = "/t/one/specs/A.antt:9:8: error: `law`: expected type `X`, but this has type `Y`\n\
                   /t/one/specs/A.antt:19:8: error: `next`: `law` was not admitted (it has holes)\n";
        let more = "./specs/A.antt:29:8: error: 2 declarations that depend on `law`, which was rejected\n";
        let reports = reports(&format!("{log}{more}"));
        assert_eq!(reports.len(), 1);
        assert_eq!((reports[0].file.as_str(), reports[0].line), ("specs/A.antt", 9));
        assert!(says_fact_fails(&reports[0].message));
        assert!(!is_of_facts(&reports[0].message));
        assert!(is_of_facts("`a`: the two types differ only where one has `≤ℤ` (expected)"));
        assert!(!says_fact_fails("`law`: this is applied to an argument but has type `ℕ`"));
    }
}
