//! Which files of definitions the entry points' contracts reach, by the names that they cite and the names
//! that those cite in turn; compared with the list in docs/PROOFS.md, so that no reader has to believe more
//! than that page says.
use std::collections::{BTreeMap, BTreeSet};
use std::fs;
use std::path::Path;

/// The entry points, each a crate and a function of it; of the C face every function.
const ENTRIES: [(&str, &str); 11] = [
    ("validation", "check"),
    ("table_query", "ask"),
    ("clash_check", "clash"),
    ("tree_check", "tree_check"),
    ("tree_building", "build"),
    ("decoding", "decode"),
    ("text_decoding", "decode_text"),
    ("sweep", "sweep"),
    ("listing_text", "list"),
    ("listing_text", "list_input"),
    ("dookerand", ""),
];

const PAGE: &str = "docs/PROOFS.md";
const HEADING: &str = "## What a reader has to believe";

/// A file of definitions: its crate and its name.
type File = (String, String);

fn path_of(file: &File) -> String {
    format!("crates/{}/specs/{}.antt", file.0, file.1)
}

/// A word without the fields that are read of it, as in `no_name.length`.
fn base(word: &str) -> &str {
    word.split('.').next().unwrap_or(word)
}

/// Where the names that a file uses come from: each name, and each name that stands for a whole file.
#[derive(Default)]
struct Uses {
    names: BTreeMap<String, (File, String)>,
    files: BTreeMap<String, File>,
}

impl Uses {
    /// `use Rattle.CRATE.specs.FILE.{..}` or `use .. as NAME`. Other lines, the code's own types (`specs.declared`) and the kit's
    /// libraries bring no definition.
    fn add(&mut self, line: &str) {
        let line = line.trim().trim_end_matches(';');
        let Some(rest) = line
            .strip_prefix("ghost ")
            .unwrap_or(line)
            .strip_prefix("use Rattle.")
        else {
            return;
        };
        let (path, brought) = match (rest.split_once(".{"), rest.split_once(" as ")) {
            (Some((path, names)), _) => (path, Err(names)),
            (None, Some((path, name))) => (path, Ok(name)),
            (None, None) => return,
        };
        let parts: Vec<&str> = path.split('.').collect();
        if parts.len() != 3 || parts[1] != "specs" {
            return;
        }
        let file = (parts[0].to_string(), parts[2].to_string());
        if !Path::new(&path_of(&file)).exists() {
            return;
        }
        match brought {
            Ok(name) => drop(self.files.insert(name.to_string(), file)),
            Err(names) => self
                .names
                .extend(entries(names).map(|(name, own)| (name, (file.clone(), own)))),
        }
    }

    /// The definition that a word of this file names in another one.
    fn find(&self, word: &str) -> Option<(File, String)> {
        let first = base(word);
        if let (Some(file), Some(name)) = (self.files.get(first), word.split('.').nth(1)) {
            return Some((file.clone(), name.to_string()));
        }
        self.names.get(first).cloned()
    }
}

/// A file's definitions, each with the words in it.
#[derive(Default)]
struct Definitions {
    words: BTreeMap<String, BTreeSet<String>>,
    uses: Uses,
    lines: usize,
}

/// What a list in braces brings: each name, and the one that it has in its own file (`A as B` brings A as B).
fn entries(names: &str) -> impl Iterator<Item = (String, String)> + '_ {
    names.split([',', '{', '}']).filter_map(|entry| {
        let own = words(entry).next()?;
        let name = words(entry).last()?;
        Some((name.to_string(), own.to_string()))
    })
}

fn words(line: &str) -> impl Iterator<Item = &str> {
    line.split(|c: char| c.is_whitespace() || "(){}[],;".contains(c))
        .filter(|w| !w.is_empty())
}

/// The name that a line begins to define; in a record or a datatype it is the name of a part.
fn head(line: &str) -> Option<&str> {
    let mut parts = words(line).skip_while(|w| ["abbrev", "unfoldable"].contains(w));
    if parts.next() != Some("pub") {
        return None;
    }
    parts.find(|w| !["record", "data"].contains(w))
}

fn read(path: &str) -> Definitions {
    let text = fs::read_to_string(path).unwrap_or_else(|e| panic!("{path}: {e}"));
    let mut all = Definitions::default();
    let mut shared = BTreeSet::new();
    let mut current = None;
    let mut type_depth = None;
    let mut head_depth = 0;
    for line in text.lines() {
        let line = line.split("--").next().unwrap_or("");
        if line.starts_with("use ") {
            all.uses.add(line);
            continue;
        }
        let Some(first) = words(line).next() else {
            continue;
        };
        all.lines += 1;
        let depth = line.len() - line.trim_start().len();
        type_depth = type_depth.filter(|outer| depth > *outer);
        if first == "module" {
            shared.extend(words(line).map(str::to_string)); // the parameters of all that follows
            continue;
        }
        if let Some(name) = head(line).filter(|_| type_depth.is_none()) {
            type_depth = words(line)
                .any(|w| w == "record" || w == "data")
                .then_some(depth);
            current = Some(name.to_string());
            head_depth = depth;
        } else if depth == head_depth
            && line.trim_start().starts_with(first)
            && all.words.contains_key(first)
        {
            // an equation
            current = Some(first.to_string());
        }
        if let Some(name) = &current {
            all.words
                .entry(name.clone())
                .or_default()
                .extend(words(line).map(str::to_string));
        }
    }
    for cited in all.words.values_mut() {
        cited.extend(shared.iter().cloned());
    }
    all
}

/// The definitions that the promises of a crate's function, or of all its functions, name.
fn promised(home: &str, function: &str) -> Vec<(File, String)> {
    let path = format!("crates/{home}/src/lib.rt");
    let text = fs::read_to_string(&path).unwrap_or_else(|e| panic!("{path}: {e}"));
    let mut uses = Uses::default();
    let mut found = Vec::new();
    let mut inside = false;
    for line in text.lines() {
        uses.add(line);
        let line = line.trim();
        if let Some((_, rest)) = line.split_once("fn ").filter(|_| !line.starts_with("//")) {
            inside = function.is_empty() || rest.split('(').next() == Some(function);
        }
        assert!(
            !(inside && line.starts_with("requires")),
            "{path}: an entry point with a condition: {line}"
        );
        if inside && line.starts_with("ensures") {
            found.extend(words(line).filter_map(|w| uses.find(w)));
        }
    }
    assert!(!found.is_empty(), "{path}: no promise of {function}");
    found
}

/// The files reached, and how many lines they have without comments and imports.
fn reached() -> (BTreeSet<File>, usize) {
    let mut files: BTreeMap<File, Definitions> = BTreeMap::new();
    let mut seen = BTreeSet::new();
    let mut open: Vec<(File, String)> = ENTRIES
        .iter()
        .flat_map(|(home, f)| promised(home, f))
        .collect();
    while let Some((file, name)) = open.pop() {
        let path = path_of(&file);
        let here = files.entry(file.clone()).or_insert_with(|| read(&path));
        // a constructor or a field stands inside the definition of its type
        let name = match here.words.contains_key(&name) {
            true => name,
            false => match here.words.iter().find(|(_, inner)| inner.contains(&name)) {
                Some((owner, _)) => owner.clone(),
                None => panic!("{path} has no {name}"),
            },
        };
        if !seen.insert((file.clone(), name.clone())) {
            continue;
        }
        for word in &here.words[&name] {
            if here.words.contains_key(base(word)) {
                open.push((file.clone(), base(word).to_string()));
            } else if let Some(other) = here.uses.find(word) {
                open.push(other);
            }
        }
    }
    let lines = files.values().map(|d| d.lines).sum();
    (files.into_keys().collect(), lines)
}

/// The page's list: rows of `| about | `CRATE` NAME, NAME; `CRATE` NAME |`.
fn listed(section: &str) -> BTreeSet<File> {
    let mut files = BTreeSet::new();
    for row in section.lines().filter(|l| l.starts_with("| ")).skip(1) {
        let cell = row.trim_end_matches(" |").rsplit("| ").next().unwrap_or("");
        for entry in cell.split(';') {
            let (home, names) = entry
                .trim()
                .trim_start_matches('`')
                .split_once("` ")
                .expect("`CRATE` NAMES");
            files.extend(
                names
                    .split(',')
                    .map(|n| (home.to_string(), n.trim().to_string())),
            );
        }
    }
    files
}

fn main() {
    let (files, lines) = reached();
    let page = fs::read_to_string(PAGE).expect(PAGE);
    let from = page.find(HEADING).expect(HEADING) + HEADING.len();
    let section = page[from..].split("\n## ").next().unwrap_or("");
    let named = listed(section);
    let mut wrong = false;
    for (home, name) in files.difference(&named) {
        println!("{PAGE} lacks {home} {name}");
        wrong = true;
    }
    for (home, name) in named.difference(&files) {
        println!("{PAGE} names {home} {name}, which no entry point's promise reaches");
        wrong = true;
    }
    let size = format!("{} files, {} lines", files.len(), lines);
    if !section.contains(&size) {
        println!("{PAGE} does not say: {size}");
        wrong = true;
    }
    if wrong {
        std::process::exit(1);
    }
    println!("specification: {size}, as {PAGE} lists them");
}
