//! Looks up each name in backquotes of the documents: a definition, theorem, function, crate, file or must-fail edit that is named there
//! must be in the repository. Where a crate or a file follows in parentheses, as in `name` (crate/specs/File), the name must be in it. Prints
//! those that are not.

use std::collections::BTreeSet;
use std::path::{Path, PathBuf};
use std::process::exit;
use std::{env, fs};

const USAGE: &str = "documents REPOSITORY [FILE..]   looks up the names in docs/DEMANDS.md, or in the files";

/// Below the crates: every word of a source, a definition or a proof but for comments, every file's name with and without its ending, and
/// every path.
#[derive(Default)]
struct Known {
    words: BTreeSet<String>,
    files: BTreeSet<String>,
    paths: BTreeSet<String>,
}

/// What a build or a check makes is no source.
const MADE: [&str; 3] = ["target", "out", ".git"];

/// Where a comment begins, by a source's ending.
const COMMENTS: [(&str, &str); 5] = [(".rt", "//"), (".antt", "--"), (".rs", "//"), (".rs.txt", "//"), (".txt", "#")];

/// The text of a source or a script, without its comments.
fn code(path: &Path) -> Option<String> {
    let name = path.to_string_lossy();
    let by_ending = COMMENTS.iter().find(|(ending, _)| name.ends_with(ending));
    if by_ending.is_none() && path.extension().is_some() {
        return None;
    }
    let text = fs::read_to_string(path).ok()?;
    let mark = by_ending.map_or("#", |(_, mark)| mark);
    if by_ending.is_none() && !text.starts_with("#!") {
        return None;
    }
    let lines = text.lines().map(|line| line.split_once(mark).map_or(line, |(code, _)| code));
    Some(lines.collect::<Vec<_>>().join("\n"))
}

impl Known {
    fn add(&mut self, path: &Path) {
        let Ok(entries) = fs::read_dir(path) else {
            return self.add_file(path);
        };
        self.add_name(path);
        for entry in entries.flatten() {
            let path = entry.path();
            let name = entry.file_name();
            if !MADE.iter().any(|&skipped| name == skipped) {
                self.add(&path);
            }
        }
    }

    fn add_name(&mut self, path: &Path) {
        let name = |part: Option<&std::ffi::OsStr>| part.map(|n| n.to_string_lossy().into_owned());
        self.files.extend(name(path.file_name()));
        self.files.extend(name(path.file_stem()));
    }

    fn add_file(&mut self, path: &Path) {
        self.add_name(path);
        self.paths.insert(path.to_string_lossy().into_owned());
        if let Some(text) = code(path) {
            let words = text.split(|c: char| c.is_whitespace() || "(){}[]«»,;:.`\"⌜⌝&!<>|=+*".contains(c));
            self.words.extend(words.filter(|w| !w.is_empty()).map(str::to_string));
        }
    }

    /// A file of a crate by its path or the end of it, another path by its last part, a field or a method by its name, names in which a star
    /// stands for something by what is around it.
    fn has(&self, name: &str) -> bool {
        if [".antt", ".rt"].iter().any(|ending| name.ends_with(ending)) {
            let end = format!("/{name}");
            return self.paths.iter().any(|path| path.ends_with(&end));
        }
        let last = name.rsplit(['/', '.', ':']).find(|part| !part.is_empty());
        let last = last.unwrap_or(name).trim_end_matches("()").trim_start_matches(['&', '!']);
        let mut known = self.files.iter().chain(&self.words);
        if let Some((before, after)) = last.split_once('*') {
            return known.any(|k| k.starts_with(before) && k.ends_with(after));
        }
        if name.starts_with("..") {
            return known.any(|k| k.ends_with(last));
        }
        self.words.contains(last) || self.files.contains(last) || self.files.contains(name)
    }
}

/// What stands between backquotes, word by word, but for commands of the kit and the lines that it prints.
fn names(text: &str) -> Vec<String> {
    let of_kit = |q: &&str| q.starts_with("rt ") || q.starts_with("rt: ");
    let quoted = text.split('`').skip(1).step_by(2).filter(|q| !of_kit(q));
    let words = quoted.flat_map(|q| q.split([' ', ',', ';', '(', ')', '=', '[', ']']));
    let named = |w: &&str| w.chars().any(char::is_alphabetic);
    words.filter(named).map(str::to_string).collect()
}

/// A name, and what follows it in parentheses.
struct Placed<'a> {
    name: &'a str,
    places: &'a str,
}

/// The names in backquotes of a line that a parenthesis follows. Of several with commas between them it is the last: where the others are is not
/// said, since each of them may be from elsewhere.
fn placed(line: &str) -> Vec<Placed<'_>> {
    let parts: Vec<&str> = line.split('`').collect();
    let named = parts[1..].chunks_exact(2);
    let placed = named.filter_map(|pair| {
        let (places, _) = pair[1].strip_prefix(" (")?.split_once(')')?;
        Some(Placed {
            name: pair[0],
            places,
        })
    });
    placed.collect()
}

impl Placed<'_> {
    /// The files and folders that the parentheses name: `crate/specs/File`, a crate, and after it files of its specs/ or proofs/; a file alone
    /// may be any crate's. Where the first word is no place, none is named. An error is a file that is not there.
    fn paths(&self, crates: &Path) -> Result<Vec<PathBuf>, String> {
        let mut paths = Vec::new();
        let folders = fs::read_dir(crates).into_iter().flatten().flatten();
        let mut owners: Vec<PathBuf> = folders.map(|entry| entry.path()).collect();
        for word in self.places.split([',', ' ', ';']).filter(|word| !word.is_empty()) {
            let owner = crates.join(word.split('/').next().unwrap_or(word));
            let file = format!("{word}.antt");
            if owner.is_dir() {
                let mut named = [crates.join(word), crates.join(file)].into_iter();
                paths.push(named.find(|path| path.exists()).ok_or(format!("no file {word}"))?);
                owners = vec![owner];
            } else if word.starts_with(char::is_uppercase) {
                let files = owners.iter().flat_map(|owner| ["specs", "proofs"].map(|kind| owner.join(kind).join(&file)));
                paths.extend(files.filter(|path| path.is_file()));
            }
            if paths.is_empty() {
                break;
            }
        }
        Ok(paths)
    }

    /// Whether there is a place to look in, and what is wrong with it.
    fn looked_up(&self, crates: &Path) -> (bool, Option<String>) {
        match self.paths(crates) {
            Err(error) => (true, Some(error)),
            Ok(paths) => {
                let mut known = Known::default();
                paths.iter().for_each(|path| known.add(path));
                let is_there = paths.is_empty() || known.has(self.name);
                let error = format!("{} is not in ({})", self.name, self.places);
                (!paths.is_empty(), Some(error).filter(|_| !is_there))
            }
        }
    }
}

fn main() {
    let mut words = env::args().skip(1);
    let Some(root) = words.next().map(PathBuf::from) else {
        eprintln!("{USAGE}");
        exit(2);
    };
    let mut files: Vec<String> = words.collect();
    if files.is_empty() {
        files.push("docs/DEMANDS.md".to_string());
    }
    let mut known = Known::default();
    known.add(&root);
    let crates = root.join("crates");
    let (mut looked_up, mut missing) = (0, 0);
    let (mut with_place, mut elsewhere) = (0, 0);
    for file in files {
        let text = fs::read_to_string(root.join(&file)).expect("the document is there");
        for (n, line) in text.lines().enumerate() {
            for name in names(line) {
                looked_up += 1;
                if !known.has(&name) {
                    missing += 1;
                    println!("{file}:{}: {name}", n + 1);
                }
            }
            for placed in placed(line) {
                let (has_place, error) = placed.looked_up(&crates);
                with_place += usize::from(has_place);
                if let Some(error) = error {
                    elsewhere += 1;
                    println!("{file}:{}: {error}", n + 1);
                }
            }
        }
    }
    println!("{looked_up} names looked up, {missing} not found; {with_place} of them with a place, {elsewhere} not there");
    exit(i32::from(missing + elsewhere > 0));
}
