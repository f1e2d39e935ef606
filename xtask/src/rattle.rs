//! Reads the functions of a source of Rattle (`src/*.rt`) with their contracts.

use crate::antt::{import, Import};
use crate::text::citations;

#[derive(Debug)]
pub struct Clause {
    /// `requires` or `ensures`, or another word; the name that may follow is left out
    pub word: String,
    /// what stands between the braces
    pub text: String,
}

#[derive(Debug)]
pub struct Parameter {
    pub name: String,
    pub kind: String,
}

#[derive(Debug)]
pub struct Function {
    pub name: String,
    pub public: bool,
    pub for_c: bool,
    pub line: usize,
    pub comment: Vec<String>,
    /// from `pub` to the line before the body, as it stands in the source
    pub head: Vec<String>,
    pub parameters: Vec<Parameter>,
    pub returns: Option<String>,
    pub clauses: Vec<Clause>,
    pub body: String,
    pub cites: Vec<String>,
}

#[derive(Debug)]
pub struct Source {
    pub crate_name: String,
    pub path: String,
    pub imports: Vec<Import>,
    pub functions: Vec<Function>,
    pub cites: Vec<String>,
}

/// Reads a file; an error has its line.
pub fn parse(crate_name: &str, path: &str, text: &str) -> Result<Source, String> {
    let lines: Vec<&str> = text.lines().collect();
    let mut source = Source {
        crate_name: crate_name.to_string(),
        path: path.to_string(),
        imports: lines.iter().filter(|line| line.starts_with("ghost use ")).filter_map(|line| import(line)).collect(),
        functions: Vec::new(),
        cites: Vec::new(),
    };
    let head = lines.iter().take_while(|line| line.starts_with("//")).count();
    source.cites = lines[..head].iter().flat_map(|line| citations(line)).collect();
    let mut comment: Vec<String> = Vec::new();
    // the type whose methods the lines are
    let mut of: Option<String> = None;
    for (at, line) in lines.iter().enumerate().skip(head) {
        if let Some(front) = line.strip_prefix("impl").and_then(|rest| rest.strip_suffix(" {")) {
            of = front.split_whitespace().last().map(|word| word.split('<').next().unwrap_or(word).to_string());
        } else if *line == "}" {
            of = None;
        }
        let inner = if of.is_some() { line.strip_prefix("    ").unwrap_or(line) } else { line };
        if inner.starts_with("//") {
            comment.push(inner.to_string());
        } else if is_function(inner) {
            let function = function(&lines, at, std::mem::take(&mut comment));
            let mut function = function.map_err(|why| format!("{path}:{}: {why}", at + 1))?;
            if let Some(of) = &of {
                function.name = format!("{of}::{}", function.name);
            }
            source.functions.push(function);
        } else if !inner.starts_with('#') {
            comment.clear();
        }
    }
    Ok(source)
}

fn is_function(line: &str) -> bool {
    !line.starts_with([' ', '/', '#'])
        && (line.starts_with("fn ") || line.contains(" fn "))
        && !line.starts_with("ghost")
        && line.contains('(')
}

fn function(lines: &[&str], at: usize, comment: Vec<String>) -> Result<Function, String> {
    let text = lines[at..].join("\n");
    let front = &text[..text.find("fn ").ok_or("no function")?];
    let open = text.find('(').ok_or("no parameters")?;
    let close = closing(&text, open)?;
    let Behind { returns, clauses, body } = behind(&text, close + 1)?;
    Ok(Function {
        name: text[front.len() + 3..open].split('<').next().unwrap_or("").trim().to_string(),
        public: front.contains("pub "),
        for_c: front.contains("extern \"C\""),
        line: at + 1,
        cites: comment.iter().flat_map(|line| citations(line)).collect(),
        comment,
        head: text[..body.0].trim_end().lines().map(|line| line.to_string()).collect(),
        parameters: parameters(&text[open + 1..close])?,
        returns,
        clauses,
        body: text[body.0..=body.1].to_string(),
    })
}

/// What stands behind the parameters of a function.
struct Behind {
    returns: Option<String>,
    clauses: Vec<Clause>,
    /// the places of the body's braces
    body: (usize, usize),
}

fn behind(text: &str, mut rest: usize) -> Result<Behind, String> {
    let mut clauses = Vec::new();
    let mut returns = None;
    loop {
        rest += text[rest..].len() - text[rest..].trim_start().len();
        let brace = rest + text[rest..].find('{').ok_or("no body")?;
        let words = text[rest..brace].trim();
        if let Some(kind) = words.strip_prefix("->") {
            // the type ends with its line, or where the body begins
            let kind = kind.lines().next().unwrap_or("").trim();
            returns = Some(kind.to_string());
            rest += text[rest..].find(kind).ok_or("no type")? + kind.len();
            continue;
        }
        let end = closing(text, brace)?;
        if words.is_empty() {
            return Ok(Behind { returns, clauses, body: (brace, end) });
        }
        let word = words.split_whitespace().next().unwrap_or("").to_string();
        clauses.push(Clause { word, text: text[brace + 1..end].to_string() });
        rest = end + 1;
    }
}

fn parameters(text: &str) -> Result<Vec<Parameter>, String> {
    let mut depth = 0;
    let parts = text.split(|c: char| {
        depth += i32::from("<([".contains(c)) - i32::from(">)]".contains(c));
        c == ',' && depth == 0
    });
    let parts = parts.map(|part| part.trim()).filter(|part| !part.is_empty() && !part.ends_with("self"));
    parts
        .map(|part| {
            let (name, kind) = part.split_once(':').ok_or(format!("the parameter `{part}`"))?;
            let name = name.trim().trim_start_matches("mut ").to_string();
            Ok(Parameter { name, kind: kind.trim().to_string() })
        })
        .collect()
}

/// The place of the bracket that closes the one at `open`.
fn closing(text: &str, open: usize) -> Result<usize, String> {
    let mut depth = 0;
    let mut quiet = false;
    let mut before = ' ';
    for (at, c) in text[open..].char_indices() {
        // a comment goes to the end of its line
        quiet = (quiet && c != '\n') || (c == '/' && before == '/');
        before = c;
        match c {
            _ if quiet => {}
            '(' | '{' | '[' => depth += 1,
            ')' | '}' | ']' => depth -= 1,
            _ => {}
        }
        if depth == 0 {
            return Ok(open + at);
        }
    }
    Err("a bracket that is not closed".to_string())
}

/// The functions of other crates that a body calls, as (crate, function), in order and each once.
pub fn calls(body: &str) -> Vec<(String, String)> {
    let mut all = Vec::new();
    let code: String = body.lines().map(|line| line.split("//").next().unwrap_or("")).collect::<Vec<_>>().join("\n");
    for (at, _) in code.match_indices("::") {
        let front: String = code[..at].chars().rev().take_while(|c| c.is_alphanumeric() || *c == '_').collect();
        let crate_name: String = front.chars().rev().collect();
        let name: String = code[at + 2..].chars().take_while(|c| c.is_alphanumeric() || *c == '_').collect();
        let called = code[at + 2 + name.len()..].starts_with('(');
        let lower = |word: &str| word.chars().next().is_some_and(|c| c.is_lowercase());
        let call = (crate_name, name);
        if called && lower(&call.0) && lower(&call.1) && !all.contains(&call) {
            all.push(call);
        }
    }
    all
}

#[cfg(test)]
mod tests {
    use super::*;

    const TEXT: &str = "// The crate (S 1.1).
ghost use Rattle.definition.specs.Load.{load_of};

// A call (S 1.2).
#[unsafe(no_mangle)]
pub extern \"C\" fn call(
    side: u32,
    out: &mut [u8; 8],
) -> u32
    requires { side ≤ 8 }
    ensures said { record { code = result } ≡ load_of side }
{
    match other::part(side) {
        Kind::Found(n) => n,
    }
}

fn small(x: u32) { drop::it(x) }

impl Table {
    // A method (S 1.3).
    pub fn place<T: Copy>(&self, a: Result<u32, T>, b: usize) -> usize
        ensures { result ≡ b }
    {
        b
    }
}
";

    #[test]
    fn functions_with_contracts() {
        let source = parse("one", "lib.rt", TEXT).unwrap();
        assert_eq!(source.functions.len(), 3);
        let call = &source.functions[0];
        assert!(call.public && call.for_c && call.line == 6);
        assert_eq!(call.clauses.len(), 2);
        assert_eq!((call.clauses[0].word.as_str(), call.clauses[1].word.as_str()), ("requires", "ensures"));
        assert_eq!(call.returns.as_deref(), Some("u32"));
        assert_eq!(call.parameters[1].kind, "&mut [u8; 8]");
        assert_eq!(call.cites, ["1.2"]);
        assert_eq!(calls(&call.body), [("other".to_string(), "part".to_string())]);
        assert_eq!(call.head.len(), 6);
        assert_eq!(source.functions[1].returns, None);
        let method = &source.functions[2];
        assert_eq!((method.name.as_str(), method.parameters.len(), method.clauses.len()), ("Table::place", 2, 1));
        assert_eq!(method.cites, ["1.3"]);
    }
}
