//! What the repository quotes of the rules stands in docs/RULES.md, or among the demands in docs/PROOFS.md, word for word:
//! the double-quoted texts in comments of `crates/*/specs` and `crates/*/proofs`, and the first column of those tables of
//! docs/TRACE.md that begin with 'rule'. A quote may leave words out ('…'); its pieces then stand there in this order.

use std::fs;
use std::path::{Path, PathBuf};

/// A quoted text, and where it is quoted.
struct Quote {
    file: String,
    line: usize,
    text: String,
}

fn main() {
    let rules = plain(&read("docs/RULES.md"));
    let demands = plain(section(&read("docs/PROOFS.md"), "## What is promised"));
    let comments = comment_quotes();
    let rows = first_cells("docs/TRACE.md");
    assert!(!comments.is_empty() && !rows.is_empty(), "quotes: nothing is quoted");
    let quotes = comments.iter().chain(&rows);
    let missing: Vec<&Quote> = quotes.filter(|quote| !stands(quote, &rules) && !stands(quote, &demands)).collect();
    for quote in &missing {
        println!("{}:{}: not in docs/RULES.md: {}", quote.file, quote.line, quote.text);
    }
    println!("{} quotes in comments and {} in docs/TRACE.md looked up, {} not found", comments.len(), rows.len(), missing.len());
    if !missing.is_empty() {
        std::process::exit(1);
    }
}

/// Whether the pieces of a quote stand in a text, one after the other.
fn stands(quote: &Quote, text: &str) -> bool {
    let mut rest = text;
    for piece in plain(&quote.text).split('…').map(str::trim).filter(|piece| !piece.is_empty()) {
        match after(rest, piece) {
            Some(tail) => rest = tail,
            None => return false,
        }
    }
    true
}

/// What follows the first place where a piece stands in a text and cuts no word.
fn after<'a>(text: &'a str, piece: &str) -> Option<&'a str> {
    let is_word = |c: Option<char>| c.is_some_and(char::is_alphanumeric);
    let cuts = |left: &str, right: &str| is_word(left.chars().next_back()) && is_word(right.chars().next());
    let whole = |&(at, _): &(usize, &str)| {
        let end = at + piece.len();
        !cuts(&text[..at], piece) && !cuts(piece, &text[end..])
    };
    text.match_indices(piece).find(whole).map(|(at, _)| &text[at + piece.len()..])
}

/// A document's words, parted by single spaces: without its explanations (lines that begin with '>'), the marks of list items
/// and those of emphasis and code.
fn plain(text: &str) -> String {
    let mut words: Vec<String> = Vec::new();
    for line in text.lines().map(str::trim).filter(|line| !line.starts_with('>')) {
        let line = line.strip_prefix("- ").unwrap_or(line).replace(['*', '`', '\\'], "");
        words.extend(line.split_whitespace().map(str::to_string));
    }
    words.join(" ")
}

/// What stands under a heading, up to the next one of its rank.
fn section<'a>(text: &'a str, heading: &str) -> &'a str {
    let (_, below) = text.split_once(heading).unwrap_or_else(|| panic!("quotes: no heading '{heading}'"));
    below.split("\n## ").next().unwrap_or(below)
}

/// The quotes in the comments of all definitions and proofs.
fn comment_quotes() -> Vec<Quote> {
    let mut files = Vec::new();
    for krate in entries(Path::new("crates")) {
        for part in ["specs", "proofs"] {
            add_files(&krate.join(part), &mut files);
        }
    }
    files.iter().flat_map(|file| quotes_of(&file.display().to_string())).collect()
}

/// The quotes in the comments of a file. Comment lines that follow each other are one text.
fn quotes_of(file: &str) -> Vec<Quote> {
    let text = read(file);
    let mut quotes: Vec<Quote> = Vec::new();
    let mut open: Option<Quote> = None;
    for (at, line) in text.lines().enumerate() {
        let Some(comment) = line.trim().strip_prefix("--") else {
            assert!(open.is_none(), "quotes: {file}:{at}: a quote that does not end");
            continue;
        };
        for (place, part) in comment.split('"').enumerate() {
            if place > 0 {
                match open.take() {
                    Some(quote) => quotes.push(quote),
                    None => open = Some(Quote { file: file.to_string(), line: at + 1, text: String::new() }),
                }
            }
            if let Some(quote) = &mut open {
                quote.text.push_str(part);
            }
        }
        if let Some(quote) = &mut open {
            quote.text.push(' ');
        }
    }
    assert!(open.is_none(), "quotes: {file}: a quote that does not end");
    quotes
}

/// The first cells of the tables whose first heading is 'rule'; what stands there in brackets at the beginning is not quoted.
fn first_cells(file: &str) -> Vec<Quote> {
    let mut quotes = Vec::new();
    let mut in_table = false;
    for (at, line) in read(file).lines().enumerate() {
        let cell = line.strip_prefix("| ").and_then(|row| row.split(" |").next());
        in_table = matches!(cell, Some("rule")) || in_table && line.starts_with('|');
        let Some(cell) = cell.filter(|&cell| in_table && cell != "rule") else { continue };
        let text = match cell.strip_prefix('(') {
            Some(bracket) => bracket.split_once(") ").map_or("", |(_, text)| text),
            None => cell,
        };
        quotes.push(Quote { file: file.to_string(), line: at + 1, text: text.to_string() });
    }
    quotes
}

/// All files of the proof language in a folder and below it.
fn add_files(folder: &Path, files: &mut Vec<PathBuf>) {
    for entry in entries(folder) {
        if entry.is_dir() {
            add_files(&entry, files);
        } else if entry.extension().is_some_and(|kind| kind == "antt") {
            files.push(entry);
        }
    }
}

/// What a folder holds, by name; nothing where there is none.
fn entries(folder: &Path) -> Vec<PathBuf> {
    let Ok(found) = fs::read_dir(folder) else { return Vec::new() };
    let mut paths: Vec<PathBuf> = found.map(|entry| entry.expect("a folder").path()).collect();
    paths.sort();
    paths
}

fn read(file: &str) -> String {
    fs::read_to_string(file).unwrap_or_else(|error| panic!("quotes: {file}: {error}"))
}
