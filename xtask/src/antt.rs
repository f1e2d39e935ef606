//! Reads a file of definitions and laws (`specs/*.antt` or `proofs/*.antt`, as `rt fmt` lays it out): its imports, its
//! blocks `module _ (..) where`, and its declarations with their whole text. A line that it does not understand is an
//! error.

use crate::text::{citations, indent, tokens};

#[derive(Clone, Copy, PartialEq, Debug)]
pub enum Kind {
    /// a statement and its proof, or a value that nothing unfolds
    Plain,
    /// `abbrev` or `unfoldable`
    Definition,
    Record,
    Data,
    /// a list of laws for the prover, which states nothing
    Ruleset,
}

/// The part of a declaration that a line belongs to.
#[derive(Clone, Copy, PartialEq, Debug)]
pub enum Part {
    /// a type, a record, a data type, or the parameters of a block
    Statement,
    /// the body of a definition
    Definition,
    Proof,
}

#[derive(Debug)]
pub struct Declaration {
    pub name: String,
    pub kind: Kind,
    pub public: bool,
    /// the line of the file, from 1
    pub line: usize,
    /// the comment right above it
    pub comment: Vec<String>,
    /// its type; of a record or a data type all of it
    pub statement: Vec<String>,
    /// what stands behind the type: what it unfolds, and its clauses
    pub body: Vec<String>,
    /// the lines of the file that the body takes, from 1, without the one behind it
    pub body_lines: (usize, usize),
    /// the innermost block around it
    pub block: Option<usize>,
    /// the points that it cites, with the field that cites them
    pub cites: Vec<(String, Option<String>)>,
}

/// Where in a crate a module stands.
#[derive(Clone, Copy, PartialEq, Debug)]
pub enum Folder {
    Specs,
    Proofs,
}

impl Folder {
    pub const ALL: [Folder; 2] = [Folder::Specs, Folder::Proofs];

    pub fn name(self) -> &'static str {
        match self {
            Folder::Specs => "specs",
            Folder::Proofs => "proofs",
        }
    }
}

/// The crate, the folder and the module of a path `CRATE.specs.MODULE`.
pub fn module_path(path: &str) -> Option<(&str, Folder, &str)> {
    Folder::ALL.into_iter().find_map(|folder| {
        let (crate_name, module) = path.split_once(&format!(".{}.", folder.name()))?;
        Some((crate_name, folder, module))
    })
}

/// A block `module _ (..) where`.
#[derive(Debug)]
pub struct Block {
    /// its comment and its parameters
    pub header: Vec<String>,
    /// the line of the file at which they begin, from 1
    pub line: usize,
    pub parent: Option<usize>,
}

#[derive(Debug, Clone)]
pub struct Import {
    pub crate_name: String,
    pub folder: Folder,
    pub module: String,
    pub names: Vec<String>,
    pub alias: Option<String>,
}

#[derive(Debug)]
pub struct Module {
    pub crate_name: String,
    pub folder: Folder,
    pub name: String,
    pub path: String,
    pub imports: Vec<Import>,
    pub blocks: Vec<Block>,
    pub declarations: Vec<Declaration>,
    /// the points that its first comment cites, for all of it
    pub cites: Vec<String>,
}

impl Declaration {
    /// Whether the body belongs to the meaning: of a law the proof does not.
    pub fn shows_body(&self) -> bool {
        self.kind == Kind::Definition
    }

    /// What it means, without comments: its statement, and its body where that counts.
    pub fn meaning(&self) -> String {
        let body = if self.shows_body() { &self.body[..] } else { &[] };
        let code = |line: &&String| !line.trim_start().starts_with("--");
        self.statement.iter().chain(body).filter(code).map(|line| line.as_str()).collect::<Vec<_>>().join("\n")
    }

    /// The constructors of a data type.
    pub fn constructors(&self) -> Vec<&str> {
        if self.kind != Kind::Data {
            return Vec::new();
        }
        let lines = self.statement.iter().skip(1).map(|line| line.trim_start().trim_start_matches("pub "));
        lines.filter(|line| !line.starts_with("--")).filter_map(|line| Some(line.split_once(" : ")?.0)).collect()
    }
}

impl Module {
    /// What a line, from 1, belongs to, and the name of the declaration.
    pub fn part(&self, line: usize) -> (Part, &str) {
        let in_block = |block: &Block| block.line <= line && line < block.line + block.header.len();
        if self.blocks.iter().any(in_block) {
            return (Part::Statement, "module _");
        }
        let Some(one) = self.declarations.iter().rev().find(|one| one.line <= line) else {
            return (Part::Statement, "");
        };
        let in_body = one.body_lines.0 <= line && line < one.body_lines.1;
        let part = match (in_body, one.kind) {
            (false, _) => Part::Statement,
            (true, Kind::Plain) => Part::Proof,
            (true, _) => Part::Definition,
        };
        (part, &one.name)
    }

    /// The blocks around a declaration, the outermost first.
    pub fn blocks_around(&self, declaration: &Declaration) -> Vec<usize> {
        let mut all = Vec::new();
        let mut next = declaration.block;
        while let Some(block) = next {
            all.push(block);
            next = self.blocks[block].parent;
        }
        all.reverse();
        all
    }
}

/// The import of a line `use Rattle.CRATE.specs.MODULE.{A, B}` or `use .. as NAME`, or of `proofs`; none if it is of
/// the kit. What stands behind a module, as a type's variants, is not read.
pub fn import(line: &str) -> Option<Import> {
    let path = line.trim().trim_end_matches(';').trim_start_matches("ghost ").trim_start_matches("pub ");
    let path = path.strip_prefix("use ")?.strip_prefix("Rattle.")?;
    let (path, names) = match path.split_once(".{") {
        Some((path, names)) => (path, names.trim_end_matches('}')),
        None => (path, ""),
    };
    let (path, alias) = match path.split_once(" as ") {
        Some((path, alias)) => (path, Some(alias.trim().to_string())),
        None => (path, None),
    };
    let (crate_name, folder, module) = module_path(path)?;
    Some(Import {
        crate_name: crate_name.to_string(),
        folder,
        module: module.to_string(),
        names: names.split(',').map(|name| name.trim().to_string()).filter(|name| !name.is_empty()).collect(),
        alias,
    })
}

struct Reader<'a> {
    lines: Vec<&'a str>,
    module: Module,
    /// the blocks around the line, each with the indent of what stands in it
    open: Vec<(usize, usize)>,
    comment: Vec<String>,
    waiting: Vec<String>,
}

/// Reads a file; an error has its line.
pub fn parse(crate_name: &str, name: &str, path: &str, text: &str) -> Result<Module, String> {
    let folder = if path.contains("/proofs/") { Folder::Proofs } else { Folder::Specs };
    let module = Module {
        crate_name: crate_name.to_string(),
        folder,
        name: name.to_string(),
        path: path.to_string(),
        imports: Vec::new(),
        blocks: Vec::new(),
        declarations: Vec::new(),
        cites: Vec::new(),
    };
    let lines = text.lines().collect();
    let mut reader = Reader { lines, module, open: Vec::new(), comment: Vec::new(), waiting: Vec::new() };
    reader.head();
    let mut at = 0;
    while at < reader.lines.len() {
        at = reader.item(at).map_err(|why| format!("{path}:{}: {why}", at + 1))?;
    }
    Ok(reader.module)
}

impl Reader<'_> {
    /// The first comment, which speaks of the whole file unless a declaration follows it at once.
    fn head(&mut self) {
        let comment: Vec<&str> = self.lines.iter().take_while(|line| line.starts_with("--")).copied().collect();
        let follows = self.lines.get(comment.len()).copied().unwrap_or("");
        if follows.starts_with("use ") || follows.is_empty() {
            self.module.cites = comment.iter().flat_map(|line| citations(line)).collect();
            for line in self.lines.iter_mut().take(comment.len()) {
                *line = "";
            }
        }
    }

    /// Reads what begins at a line; gives the line behind it.
    fn item(&mut self, at: usize) -> Result<usize, String> {
        let line = self.lines[at];
        if line.trim().is_empty() {
            self.comment.clear();
            return Ok(at + 1);
        }
        self.open.retain(|(_, level)| indent(line) >= *level);
        let level = self.open.last().map_or(0, |(_, level)| *level);
        let text = line.trim_start();
        if indent(line) != level {
            return Err("a line that goes on with nothing".to_string());
        }
        let end = self.end(at, level);
        if text.starts_with("--") {
            self.waiting.extend(citations(text));
            self.comment.push(line.to_string());
            return Ok(at + 1);
        }
        let words: Vec<&str> = text.split_whitespace().collect();
        match words[0] {
            "use" => self.import(at),
            "mod" => Ok(at + 1),
            "pub" if words[1] == "mod" => Ok(at + 1),
            "pub" | "unfoldable" if words[1] == "use" || words.get(2) == Some(&"use") => Err("a name passed on".into()),
            "module" => self.block(at),
            "unfolding" => self.clause(at, end, false),
            "mutual" | "infix" | "infixl" | "infixr" | "syntax" | "open" | "axiom" => Err(format!("`{}`", words[0])),
            _ => self.declaration(at, end, &words),
        }
    }

    /// The line behind an item that begins here: the next one that is no deeper than it and closes no bracket.
    fn end(&self, at: usize, level: usize) -> usize {
        let mut end = at + 1;
        let mut next = end;
        while next < self.lines.len() {
            if !self.lines[next].trim().is_empty() {
                let line = self.lines[next];
                let closes = indent(line) == level && line.trim_start().starts_with([')', '}', ']']);
                if indent(line) <= level && !closes {
                    break;
                }
                end = next + 1;
            }
            next += 1;
        }
        end
    }

    fn import(&mut self, at: usize) -> Result<usize, String> {
        let mut end = at + 1;
        let mut whole = self.lines[at].to_string();
        while whole.contains('{') && !whole.contains('}') {
            whole.push_str(self.lines.get(end).ok_or("an import without an end")?);
            end += 1;
        }
        self.module.imports.extend(import(&whole));
        Ok(end)
    }

    /// The innermost block around the line.
    fn inner(&self) -> Option<usize> {
        self.open.last().map(|(block, _)| *block)
    }

    fn block(&mut self, at: usize) -> Result<usize, String> {
        let mut header = std::mem::take(&mut self.comment);
        let above = header.len();
        for line in &self.lines[at..] {
            header.push(line.to_string());
            if line.ends_with(" where") {
                let end = at + header.len() - above;
                let inside = self.lines[end..].iter().find(|line| !line.is_empty()).ok_or("an empty block")?;
                let parent = self.inner();
                self.open.push((self.module.blocks.len(), indent(inside)));
                self.module.blocks.push(Block { header, line: at + 1 - above, parent });
                return Ok(end);
            }
        }
        Err("a block without `where`".to_string())
    }

    /// A clause, or what is unfolded in the clauses, of the last declaration.
    fn clause(&mut self, at: usize, end: usize, named: bool) -> Result<usize, String> {
        let last = self.module.declarations.last_mut().ok_or("a clause of nothing")?;
        let bare = last.name.trim_matches('◌');
        if named && !tokens(self.lines[at]).contains(&bare) {
            return Err(format!("neither a declaration nor a clause of `{}`", last.name));
        }
        if last.body.is_empty() {
            last.body_lines.0 = at + 1;
        }
        last.body_lines.1 = end + 1;
        last.body.append(&mut self.comment);
        last.body.extend(self.lines[at..end].iter().map(|line| line.to_string()));
        Ok(end)
    }

    fn declaration(&mut self, at: usize, end: usize, words: &[&str]) -> Result<usize, String> {
        let modifiers = words.iter().take_while(|word| ["pub", "abbrev", "unfoldable"].contains(word)).count();
        let rest = &words[modifiers..];
        let is = |modifier: &str| words[..modifiers].contains(&modifier);
        let (name, kind) = match rest {
            ["record", name, ..] => (*name, Kind::Record),
            ["data", name, ..] => (*name, Kind::Data),
            ["ruleset", name, ..] => (*name, Kind::Ruleset),
            [name, ":", ..] if is("abbrev") || is("unfoldable") => (*name, Kind::Definition),
            [name, ":", ..] => (*name, Kind::Plain),
            _ if modifiers == 0 => return self.clause(at, end, true),
            _ => return Err("a declaration of no known kind".to_string()),
        };
        let mut cites: Vec<_> = self.waiting.drain(..).map(|point| (point, None)).collect();
        let statement: Vec<String> = self.lines[at..end].iter().map(|line| line.to_string()).collect();
        if kind == Kind::Record || kind == Kind::Data {
            cites.extend(inner_cites(&statement));
        }
        self.module.declarations.push(Declaration {
            name: name.to_string(),
            kind,
            public: is("pub"),
            line: at + 1,
            comment: std::mem::take(&mut self.comment),
            statement,
            body: Vec::new(),
            body_lines: (0, 0),
            block: self.inner(),
            cites,
        });
        Ok(end)
    }
}

/// The citations in the comments of a record, each with the field below it.
fn inner_cites(lines: &[String]) -> Vec<(String, Option<String>)> {
    let mut all = Vec::new();
    let mut waiting = Vec::new();
    for line in lines {
        if line.trim_start().starts_with("--") {
            waiting.extend(citations(line));
            continue;
        }
        let words: Vec<&str> = line.split_whitespace().filter(|word| *word != "pub").collect();
        if words.get(1) == Some(&":") {
            all.extend(waiting.drain(..).map(|point| (point, Some(words[0].to_string()))));
        }
    }
    all
}

#[cfg(test)]
mod tests {
    use super::*;

    const TEXT: &str = "-- A file (S 1.1).
use Rattle.definition.specs.Lists.{
  sum_to,
  other,
}

-- a record (S 1.2)
pub record Held (r : ℕ) : Type 0 where
  -- its field (S 1.3)
  pub dots : ℕ

module _ (r : ℕ)
    (h : Held r) where
  abbrev twice : ℕ
  twice = 2 * r

  -- a law (S 1.4)
  pub law : (n : ℕ)
      → twice ≡ n
  unfolding sum_to
  law n =
      proof
    where
      proof = refl

last : ℕ
last = 1
";

    fn parsed() -> Module {
        parse("one", "File", "File.antt", TEXT).unwrap()
    }

    #[test]
    fn declarations_with_their_blocks() {
        let module = parsed();
        let names: Vec<&str> = module.declarations.iter().map(|d| d.name.as_str()).collect();
        assert_eq!(names, ["Held", "twice", "law", "last"]);
        assert_eq!(module.blocks_around(&module.declarations[2]).len(), 1);
        assert_eq!(module.blocks_around(&module.declarations[3]).len(), 0);
        assert_eq!(module.declarations[2].statement.len(), 2);
        assert_eq!(module.declarations[1].body.len(), 1);
    }

    #[test]
    fn proofs_and_statements() {
        let module = parsed();
        assert_eq!(module.part(9), (Part::Statement, "Held"));
        assert_eq!(module.part(13), (Part::Statement, "module _"));
        assert_eq!(module.part(15), (Part::Definition, "twice"));
        assert_eq!(module.part(18), (Part::Statement, "law"));
        assert_eq!(module.part(22), (Part::Proof, "law"));
    }

    #[test]
    fn citations_and_imports() {
        let module = parsed();
        assert_eq!(module.cites, ["1.1"]);
        assert_eq!(module.declarations[0].cites[1], ("1.3".to_string(), Some("dots".to_string())));
        assert_eq!(module.declarations[2].cites[0].0, "1.4");
        assert_eq!(module.imports[0].names, ["sum_to", "other"]);
    }

    #[test]
    fn unknown_lines_are_errors() {
        assert!(parse("one", "File", "File.antt", "law : ℕ\nother = 1\n").is_err());
        assert!(parse("one", "File", "File.antt", "mutual\n").is_err());
    }
}
