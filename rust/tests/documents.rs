//! The map is true: the claims' and the regulator's tables name files that are there and that declare
//! what the tables say they do, and every statement has a proof of its own name and a row.

use std::collections::BTreeSet;
use std::fs;
use std::path::{Path, PathBuf};

fn root() -> PathBuf {
    Path::new(env!("CARGO_MANIFEST_DIR")).join("..")
}

fn read(path: &str) -> String {
    fs::read_to_string(root().join(path)).unwrap_or_else(|why| panic!("{path}: {why}"))
}

/// What stands between backticks.
fn spans(text: &str) -> Vec<&str> {
    text.split('`').skip(1).step_by(2).collect()
}

/// The cells of each row of the tables of a document, without the tables' heads.
fn rows(document: &str) -> Vec<Vec<&str>> {
    let lines: Vec<&str> = document.lines().collect();
    (0..lines.len())
        .filter(|&i| lines[i].starts_with("| "))
        .filter(|&i| {
            !lines
                .get(i + 1)
                .is_some_and(|next| next.starts_with("|---"))
        })
        .map(|i| lines[i].trim_matches('|').split(" | ").collect())
        .collect()
}

fn is_name(span: &str) -> bool {
    span.starts_with(|c: char| c.is_ascii_alphabetic())
        && span
            .chars()
            .all(|c| c.is_ascii_alphanumeric() || c == '_' || c == '-')
}

/// A name's last letter is followed by none of its letters.
fn ends(rest: &str) -> bool {
    !rest.starts_with(|c: char| c.is_alphanumeric() || "_-'".contains(c))
}

/// A definition, statement or law, in one line of antt.
fn is_declared(line: &str, name: &str) -> bool {
    let mut rest = line.trim_start();
    let mut marked = false;
    while let Some(word) = ["pub ", "abbrev ", "unfoldable ", "data ", "record "]
        .iter()
        .find(|word| rest.starts_with(**word))
    {
        rest = &rest[word.len()..];
        marked = true;
    }
    match rest.strip_prefix(name) {
        Some(after) if marked => ends(after),
        Some(after) => after.starts_with(" :"),
        None => false,
    }
}

/// A function, a type, a constant or a named promise, in one line of code.
fn is_written(line: &str, name: &str) -> bool {
    ["fn ", "struct ", "enum ", "const ", "ensures "]
        .iter()
        .any(|word| {
            line.split(word)
                .skip(1)
                .any(|rest| rest.strip_prefix(name).is_some_and(ends))
        })
}

fn declares(path: &str, name: &str) -> bool {
    read(path).lines().any(|line| {
        if path.ends_with(".antt") {
            is_declared(line, name)
        } else {
            is_written(line, name)
        }
    })
}

/// Each name is declared in one of the files, and each file of definitions or code declares one of the names.
fn compare(names: &[&str], files: &[&str]) {
    let homes: Vec<&str> = files
        .iter()
        .copied()
        .filter(|file| file.ends_with(".antt") || file.ends_with(".rt"))
        .collect();
    for file in files {
        assert!(root().join(file).is_file(), "no file {file}");
    }
    for name in names {
        assert!(
            homes.iter().any(|file| declares(file, name)),
            "{name} is not in {files:?}"
        );
    }
    for file in homes {
        assert!(
            names.is_empty() || names.iter().any(|name| declares(file, name)),
            "{file} has none of {names:?}"
        );
    }
}

#[test]
fn claims_have_their_files() {
    let claims = read("docs/CLAIMS.md");
    let rows = rows(&claims);
    assert!(rows.len() > 100, "only {} rows", rows.len());
    for cells in rows {
        assert_eq!(cells.len(), 3, "{cells:?}");
        let names: Vec<&str> = spans(cells[1])
            .into_iter()
            .filter(|span| is_name(span))
            .collect();
        compare(&names, &spans(cells[2]));
    }
}

#[test]
fn assurance_has_its_files() {
    let assurance = read("docs/ASSURANCE.md");
    let mut told = BTreeSet::new();
    for cells in rows(&assurance) {
        assert_eq!(cells.len(), 2, "{cells:?}");
        let (names, proofs): (Vec<&str>, Vec<&str>) =
            spans(cells[1]).into_iter().partition(|span| is_name(span));
        compare(&names, &spans(cells[0]));
        for file in proofs {
            assert!(
                names
                    .iter()
                    .flat_map(|name| proofs_of(name))
                    .any(|proof| declares(file, &proof)),
                "{file} proves none of {names:?}"
            );
        }
        told.extend(names);
    }
    // what the text rests on is a statement or a type, whose name begins with a capital letter
    let text = spans(&assurance).into_iter().filter(|span| is_name(span));
    for name in text.filter(|name| name.starts_with(|c: char| c.is_uppercase())) {
        assert!(
            name == "LikeThis" || told.contains(name),
            "{name} is not in the table"
        );
    }
}

/// `LikeThis` is proved as `like_this`, or as `like_this_lem` where a definition has that name.
fn proofs_of(statement: &str) -> [String; 2] {
    let mut name = String::new();
    for (i, c) in statement.chars().enumerate() {
        if c.is_uppercase() && i > 0 {
            name.push('_');
        }
        name.extend(c.to_lowercase());
    }
    let lemma = format!("{name}_lem");
    [name, lemma]
}

/// All antt files below a folder.
fn files_below(folder: &Path) -> Vec<String> {
    let Ok(entries) = fs::read_dir(folder) else {
        return Vec::new();
    };
    let mut texts = Vec::new();
    for path in entries.map(|entry| entry.expect("the folder can be read").path()) {
        if path.is_dir() {
            texts.extend(files_below(&path));
        } else if path.extension().is_some_and(|ending| ending == "antt") {
            texts.push(fs::read_to_string(&path).expect("it is text"));
        }
    }
    texts
}

/// The statements among the definitions: types that take nothing and that other files may use.
fn statements(texts: &[String]) -> Vec<&str> {
    texts
        .iter()
        .flat_map(|text| text.lines())
        .filter_map(|line| line.strip_prefix("abbrev pub "))
        .filter_map(|line| line.split_once(" : Type "))
        .map(|(name, _)| name)
        .filter(|name| is_name(name))
        .collect()
}

#[test]
fn statements_have_their_proofs_and_rows() {
    let claims = read("docs/CLAIMS.md");
    let claimed: BTreeSet<&str> = rows(&claims)
        .iter()
        .flat_map(|cells| spans(cells[1]))
        .collect();
    let mut count = 0;
    for entry in fs::read_dir(root().join("crates")).expect("the crates are there") {
        let folder = entry.expect("the folder can be read").path();
        let specs = files_below(&folder.join("specs"));
        let proofs = files_below(&folder.join("proofs"));
        for statement in statements(&specs) {
            let lines = proofs_of(statement).map(|name| format!("pub {name} : {statement}"));
            let is_proved = proofs
                .iter()
                .flat_map(|text| text.lines())
                .any(|line| lines.iter().any(|proof| line == proof));
            assert!(is_proved, "{}: no line of {lines:?}", folder.display());
            assert!(claimed.contains(statement), "{statement} has no row");
            count += 1;
        }
    }
    assert!(count > 80, "only {count} statements");
}
