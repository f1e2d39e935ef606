//! The crates of the repository with their floors, their modules of definitions and laws, and their sources.

use std::path::Path;

use crate::antt::{self, Folder, Module};
use crate::rattle::{self, Source};
use crate::text::read;

pub struct Crate {
    pub name: String,
    pub floor: String,
}

pub struct Tree {
    /// in the order of crates.txt
    pub crates: Vec<Crate>,
    /// by crate, then as specs/Lib.antt and proofs/Lib.antt have them
    pub modules: Vec<Module>,
    pub sources: Vec<Source>,
}

impl Tree {
    /// Reads everything below a folder.
    pub fn load(root: &Path) -> Result<Tree, String> {
        let mut tree = Tree { crates: crates(&read(&root.join("crates.txt"))?)?, modules: vec![], sources: vec![] };
        for one in &tree.crates {
            for folder in Folder::ALL {
                tree.modules.extend(modules(root, &one.name, folder)?);
            }
            tree.sources.extend(sources(root, &one.name)?);
        }
        if tree.modules.is_empty() || tree.sources.is_empty() {
            return Err("crates.txt: no modules or no sources".to_string());
        }
        Ok(tree)
    }

    pub fn floor(&self, crate_name: &str) -> &str {
        self.crates.iter().find(|one| one.name == crate_name).map_or("", |one| one.floor.as_str())
    }

    /// The number of a module, by its crate, folder and name.
    pub fn module(&self, crate_name: &str, folder: Folder, name: &str) -> Option<usize> {
        let is_it = |one: &Module| one.crate_name == crate_name && one.folder == folder && one.name == name;
        self.modules.iter().position(is_it)
    }

    /// A function, with the source that it stands in, by its crate and name.
    pub fn function(&self, crate_name: &str, name: &str) -> Option<(usize, usize)> {
        let of_crate = self.sources.iter().enumerate().filter(|(_, source)| source.crate_name == crate_name);
        of_crate
            .filter_map(|(i, source)| Some((i, source.functions.iter().position(|function| function.name == name)?)))
            .next()
    }
}

fn crates(text: &str) -> Result<Vec<Crate>, String> {
    let mut floor = String::new();
    let mut all = Vec::new();
    for line in text.lines() {
        if let Some(head) = line.strip_prefix("## ") {
            floor = head.split(':').next().unwrap_or("").to_string();
        } else if !line.starts_with('#') && !line.trim().is_empty() {
            // `NAME staticlib: ..` is a static library
            let name = line.split([':', ' ']).next().unwrap_or("").to_string();
            all.push(Crate { name, floor: floor.clone() });
        }
    }
    if all.is_empty() {
        return Err("crates.txt: no crates".to_string());
    }
    Ok(all)
}

fn modules(root: &Path, crate_name: &str, folder: Folder) -> Result<Vec<Module>, String> {
    let folder = format!("crates/{crate_name}/{}", folder.name());
    let library = root.join(&folder).join("Lib.antt");
    if !library.exists() {
        return Ok(Vec::new());
    }
    let list = read(&library)?;
    let names = list.lines().filter_map(|line| line.strip_prefix("pub mod ").or(line.strip_prefix("mod ")));
    names
        .map(|name| {
            let path = format!("{folder}/{name}.antt");
            antt::parse(crate_name, name, &path, &read(&root.join(&path))?)
        })
        .collect()
}

fn sources(root: &Path, crate_name: &str) -> Result<Vec<Source>, String> {
    let folder = format!("crates/{crate_name}/src");
    let entries = std::fs::read_dir(root.join(&folder)).map_err(|error| format!("{folder}: {error}"))?;
    let mut names: Vec<String> = entries.flatten().map(|entry| entry.file_name().to_string_lossy().into()).collect();
    names.retain(|name| name.ends_with(".rt"));
    names.sort();
    names
        .iter()
        .map(|name| {
            let path = format!("{folder}/{name}");
            rattle::parse(crate_name, &path, &read(&root.join(&path))?)
        })
        .collect()
}
