//! A plain program to compare `portsd` with over a whole tree: `plain_tree DIRECTORY VARIABLE` loads every
//! file below the directory, whose names are then taken from it as from `/`, evaluates the makefile of each
//! directory `/ports/CATEGORY/PORT`, and prints the variable of each and, on standard error, the
//! microseconds that this took without the loading. With `--list` for the variable it makes the record of
//! each port and prints the list of packages as `GET /v1/list` has it. It reads what `tree.sh` and
//! `index.sh` write and no more, proves nothing, and has none of the limits. `plain_index.rs` uses what it has.
use std::collections::HashMap;
use std::env;
use std::fs;
use std::io::{self, BufWriter, Write};
use std::path::Path;
use std::process::ExitCode;
use std::time::Instant;

pub type Files = HashMap<String, String>;

/// The variables of a makefile, as they are written.
#[derive(Default)]
pub struct Variables(HashMap<String, String>);

pub struct Make<'a> {
    files: &'a Files,
    makefile: &'a str,
    pub variables: Variables,
    shared_asked: bool,
}

enum Line {
    Plain(String),
    If { branches: Vec<(Option<String>, Vec<Line>)> },
    For { header: String, body: Vec<Line> },
}

fn directory(name: &str) -> &str {
    name.rsplit_once('/').map_or("", |(front, _)| front)
}

fn under(directory: &str, file: &str) -> String {
    let mut parts: Vec<&str> = Vec::new();
    let whole = if file.starts_with('/') { file.to_string() } else { format!("{directory}/{file}") };
    for part in whole.split('/') {
        match part {
            "" | "." => {}
            ".." => {
                parts.pop();
            }
            _ => parts.push(part),
        }
    }
    parts.iter().map(|part| format!("/{part}")).collect()
}

/// Reads lines up to the end of a block, and gives them with the line that ends it.
fn read_block<'a>(lines: &mut impl Iterator<Item = &'a str>) -> (Vec<Line>, &'a str) {
    let mut block = Vec::new();
    while let Some(line) = lines.next() {
        let line = line.split('#').next().unwrap_or("").trim();
        if let Some(condition) = line.strip_prefix(".if") {
            let mut branches = Vec::new();
            let mut condition = Some(condition.trim().to_string());
            loop {
                let (body, end) = read_block(lines);
                branches.push((condition.take(), body));
                if let Some(next) = end.strip_prefix(".elif") {
                    condition = Some(next.trim().to_string());
                } else if end != ".else" {
                    break;
                }
            }
            block.push(Line::If { branches });
        } else if let Some(header) = line.strip_prefix(".for") {
            let (body, _) = read_block(lines);
            block.push(Line::For { header: header.trim().to_string(), body });
        } else if line.starts_with(".el") || line.starts_with(".end") {
            return (block, line);
        } else if !line.is_empty() {
            block.push(Line::Plain(line.to_string()));
        }
    }
    (block, "")
}

impl Make<'_> {
    fn file(&mut self, name: &str) -> bool {
        let Some(text) = self.files.get(name) else {
            return false;
        };
        let (block, _) = read_block(&mut text.lines());
        self.block(name, &block, &[]);
        true
    }

    fn block(&mut self, name: &str, block: &[Line], words: &[(String, String)]) {
        for line in block {
            match line {
                Line::Plain(text) => self.line(name, &put(text, words)),
                Line::If { branches } => {
                    for (condition, body) in branches {
                        let holds = match condition {
                            Some(text) => self.holds(&put(text, words)),
                            None => true,
                        };
                        if holds {
                            self.block(name, body, words);
                            break;
                        }
                    }
                }
                Line::For { header, body } => {
                    let Some((variable, rest)) = header.split_once(" in ") else {
                        continue;
                    };
                    let found = self.expand(&put(rest, words));
                    for word in found.split_whitespace() {
                        let mut inner = vec![(variable.trim().to_string(), word.to_string())];
                        inner.extend_from_slice(words);
                        self.block(name, body, &inner);
                    }
                }
            }
        }
    }

    fn line(&mut self, name: &str, line: &str) {
        if let Some(rest) = line.strip_prefix(".include") {
            let text = self.expand(rest.trim());
            if let Some(file) = text.strip_prefix('"').and_then(|text| text.strip_suffix('"')) {
                self.file(&under(directory(name), file));
            } else if text == "<bsd.port.mk>" && !self.shared_asked {
                self.shared_asked = true;
                self.file(&under(directory(self.makefile), "../Makefile.inc"));
            }
        } else if let Some((name, value)) = line.split_once('=') {
            self.assign(name, value.trim_start());
        }
    }

    fn assign(&mut self, name: &str, value: &str) {
        let word = name.trim_end_matches([':', '+', '?']);
        let key = self.expand(word.trim());
        match &name[word.len()..] {
            ":" => {
                let expanded = self.expand(value);
                self.variables.0.insert(key, expanded);
            }
            "+" => match self.variables.0.get_mut(&key) {
                Some(text) => {
                    text.push(' ');
                    text.push_str(value);
                }
                None => {
                    self.variables.0.insert(key, value.to_string());
                }
            },
            "?" => {
                self.variables.0.entry(key).or_insert_with(|| value.to_string());
            }
            _ => {
                self.variables.0.insert(key, value.to_string());
            }
        }
    }

    fn holds(&self, text: &str) -> bool {
        text.split("||").any(|operand| operand.split("&&").all(|term| self.term(term.trim())))
    }

    fn term(&self, term: &str) -> bool {
        if let Some(term) = term.strip_prefix('!') {
            return !self.term(term.trim());
        }
        if let Some(name) = term.strip_prefix("defined(").and_then(|t| t.strip_suffix(')')) {
            return self.variables.0.contains_key(&self.expand(name));
        }
        if let Some(inside) = term.strip_prefix("empty(").and_then(|t| t.strip_suffix(')')) {
            return self.expand(&format!("${{{inside}}}")).trim().is_empty();
        }
        if let Some(file) = term.strip_prefix("exists(").and_then(|t| t.strip_suffix(')')) {
            return self.files.contains_key(&under(directory(self.makefile), &self.expand(file)));
        }
        match term.split_once("==") {
            Some((left, right)) => self.expand(left.trim()) == self.expand(right.trim()),
            None => !self.expand(term).is_empty(),
        }
    }

    fn expand(&self, text: &str) -> String {
        self.variables.expand(text)
    }
}

impl Variables {
    pub fn value(&self, name: &str) -> Option<String> {
        self.0.get(name).map(|value| self.expand(value))
    }

    fn expand(&self, text: &str) -> String {
        let mut joined = String::new();
        self.expand_onto(text, &mut joined);
        joined
    }

    fn expand_onto(&self, text: &str, joined: &mut String) {
        let mut rest = text;
        while let Some(at) = rest.find('$') {
            joined.push_str(&rest[..at]);
            rest = &rest[at + 1..];
            if let Some(behind) = rest.strip_prefix('$') {
                joined.push('$');
                rest = behind;
            } else if let Some((inside, behind)) = rest.strip_prefix('{').and_then(|r| r.split_once('}')) {
                let (name, modifiers) = inside.split_once(':').unwrap_or((inside, ""));
                let value = self.value(name).unwrap_or_default();
                joined.push_str(&modified(value, modifiers));
                rest = behind;
            } else {
                joined.push('$');
            }
        }
        joined.push_str(rest);
    }
}

fn modified(value: String, modifiers: &str) -> String {
    if modifiers.is_empty() {
        return value;
    }
    let mut value = value;
    for modifier in modifiers.split(':') {
        value = value.split_whitespace().filter_map(|word| changed(word, modifier)).collect::<Vec<_>>().join(" ");
    }
    value
}

fn changed(word: &str, modifier: &str) -> Option<String> {
    if let Some(pattern) = modifier.strip_prefix('M') {
        return match pattern.strip_suffix('*') {
            Some(front) => word.starts_with(front).then(|| word.to_string()),
            None => (word == pattern).then(|| word.to_string()),
        };
    }
    if let Some(texts) = modifier.strip_prefix("S/") {
        let mut parts = texts.split('/');
        let (old, new) = (parts.next()?, parts.next()?);
        return Some(word.replacen(old, new, 1));
    }
    match modifier {
        "U" => Some(word.to_ascii_uppercase()),
        "R" => Some(word.rsplit_once('.').map_or(word, |(front, _)| front).to_string()),
        "T" => Some(word.rsplit_once('/').map_or(word, |(_, back)| back).to_string()),
        _ => Some(word.to_string()),
    }
}

/// A line with the words of the loops round it put in.
fn put(line: &str, words: &[(String, String)]) -> String {
    let mut line = line.to_string();
    for (name, word) in words {
        line = line.replace(&format!("${{{name}}}"), word);
    }
    line
}

pub fn load(top: &Path, at: &Path, files: &mut Files) -> io::Result<()> {
    for entry in fs::read_dir(at)? {
        let path = entry?.path();
        if path.is_dir() {
            load(top, &path, files)?;
        } else if let Ok(name) = path.strip_prefix(top) {
            files.insert(format!("/{}", name.display()), fs::read_to_string(&path)?);
        }
    }
    Ok(())
}

pub fn evaluated<'a>(files: &'a Files, makefile: &'a str) -> Make<'a> {
    let mut make = Make { files, makefile, variables: Variables::default(), shared_asked: false };
    make.variables.0.insert(".CURDIR".to_string(), directory(makefile).to_string());
    make.file(makefile);
    make
}

/// The variable of each makefile.
fn values(out: &mut impl Write, files: &Files, names: &[&String], variable: &str) -> io::Result<()> {
    for name in names {
        let value = evaluated(files, name).expand(&format!("${{{variable}}}"));
        writeln!(out, "{name} {value}")?;
    }
    Ok(())
}

/// What a port is, by its variables, as a service has to know it: a list has a port only where all of them
/// can be had, though it shows its names alone.
#[allow(dead_code)]
pub struct Record {
    pub path: String,
    pub maintainer: String,
    pub categories: Vec<String>,
    pub chosen: Vec<String>,
    pub flavors: Vec<String>,
    pub pseudo: Vec<String>,
    pub packages: Vec<Package>,
    pub depends: Vec<Depend>,
}

#[allow(dead_code)]
pub struct Package {
    pub subpackage: String,
    pub name: String,
    pub comment: String,
}

#[allow(dead_code)]
pub struct Depend {
    pub kind: &'static str,
    pub subpackage: String,
    pub item: String,
}

impl Make<'_> {
    fn value(&self, name: &str) -> Option<String> {
        self.variables.value(name)
    }

    fn words(&self, name: &str) -> Vec<String> {
        let value = self.value(name).unwrap_or_default();
        value.split_whitespace().map(str::to_string).collect()
    }

    /// The record of a port; none where a flavor isn't known or a name is no package's name.
    pub fn record(&self) -> Option<Record> {
        let chosen = lowered(self.words("FLAVOR"));
        let flavors = lowered(self.words("FLAVORS"));
        let pseudo = lowered(self.words("PSEUDO_FLAVORS"));
        if !chosen.iter().all(|flavor| flavors.contains(flavor) || pseudo.contains(flavor)) {
            return None;
        }
        let mut subpackages = self.words("MULTI_PACKAGES");
        if subpackages.is_empty() {
            subpackages.push("-".to_string());
        }
        let maintainer = self.value("MAINTAINER").unwrap_or_default();
        let categories = self.words("CATEGORIES");
        let mut depends = Vec::new();
        self.depend("build", "BUILD_DEPENDS", "", &mut depends);
        let mut packages = Vec::new();
        for subpackage in subpackages {
            let name = self.full_name(&subpackage, &chosen, &flavors)?;
            let comment = self.own("COMMENT", &subpackage).unwrap_or_default();
            self.depend("lib", "LIB_DEPENDS", &subpackage, &mut depends);
            self.depend("run", "RUN_DEPENDS", &subpackage, &mut depends);
            packages.push(Package { subpackage, name, comment });
        }
        self.depend("test", "TEST_DEPENDS", "", &mut depends);
        let path = directory(self.makefile).trim_start_matches("/ports/").to_string();
        Some(Record { path, maintainer, categories, chosen, flavors, pseudo, packages, depends })
    }

    /// A variable of one package, or else of all.
    fn own(&self, name: &str, subpackage: &str) -> Option<String> {
        if subpackage == "-" {
            return self.value(name);
        }
        self.value(&format!("{name}{subpackage}")).or_else(|| self.value(name))
    }

    fn full_name(&self, subpackage: &str, chosen: &[String], flavors: &[String]) -> Option<String> {
        let ending = if subpackage == "-" { "" } else { subpackage };
        if let Some(name) = self.value(&format!("FULLPKGNAME{ending}")) {
            return is_name(&name).then_some(name);
        }
        let base = self.value("PKGNAME").or_else(|| self.value("DISTNAME"));
        let mut name = match self.value(&format!("PKGNAME{ending}")) {
            Some(name) => name,
            None if ending.is_empty() || ending == "-main" => base?,
            None => format!("{}{ending}", base?),
        };
        let (stem, version) = split_name(&name)?;
        let end = stem.len() + 1 + version.len();
        let epoch = self.own("EPOCH", subpackage).map_or(String::new(), |epoch| format!("v{epoch}"));
        let revision = self.own("REVISION", subpackage).map_or(String::new(), |revision| format!("p{revision}"));
        name.insert_str(end, &format!("{revision}{epoch}"));
        for flavor in flavors.iter().filter(|flavor| chosen.contains(flavor)) {
            name.push('-');
            name.push_str(flavor);
        }
        is_name(&name).then_some(name)
    }

    fn depend(&self, kind: &'static str, name: &str, subpackage: &str, depends: &mut Vec<Depend>) {
        let value = match subpackage {
            "" => self.value(name),
            subpackage => self.own(name, subpackage),
        };
        for item in value.unwrap_or_default().split_whitespace() {
            depends.push(Depend { kind, subpackage: subpackage.to_string(), item: item.to_string() });
        }
    }
}

fn lowered(words: Vec<String>) -> Vec<String> {
    words.iter().map(|word| word.to_ascii_lowercase()).collect()
}

/// The stem and the version of a package's name.
pub fn split_name(name: &str) -> Option<(&str, &str)> {
    let stem = name.as_bytes().windows(2).position(|pair| pair[0] == b'-' && pair[1].is_ascii_digit())?;
    let rest = &name[stem + 1..];
    Some((&name[..stem], &rest[..rest.find('-').unwrap_or(rest.len())]))
}

/// Whether a text is a package's name: a stem, a version, flavors.
fn is_name(name: &str) -> bool {
    let Some((stem, version)) = split_name(name) else {
        return false;
    };
    let is_plain = |text: &str| !text.is_empty() && !text.contains(|c| " \t/,|<>=*!".contains(c));
    let digits = version.split(|c: char| !c.is_ascii_digit()).all(|run| run.len() <= 18);
    let known = version.bytes().all(|byte| byte.is_ascii_alphanumeric() || b"._+".contains(&byte));
    let flavors = &name[stem.len() + 1 + version.len()..];
    is_plain(stem) && digits && known && flavors.split('-').skip(1).all(is_plain)
}

/// The packages of all ports, as `GET /v1/list` has them.
fn list(out: &mut impl Write, files: &Files, names: &[&String]) -> io::Result<()> {
    let mut records: Vec<Record> = names.iter().filter_map(|name| evaluated(files, name).record()).collect();
    records.sort_by(|one, other| one.path.cmp(&other.path));
    let mut texts = Vec::new();
    for record in &records {
        for package in &record.packages {
            let Package { subpackage, name, .. } = package;
            texts.push(format!(r#"{{"name":"{name}","path":"{}","subpackage":"{subpackage}"}}"#, record.path));
        }
    }
    writeln!(out, "[{}]", texts.join(","))
}

fn main() -> ExitCode {
    let words: Vec<String> = env::args().collect();
    let [_, top, variable] = words.as_slice() else {
        return ExitCode::from(2);
    };
    let mut files = Files::new();
    if load(Path::new(top), Path::new(top), &mut files).is_err() {
        return ExitCode::from(2);
    }
    let mut names: Vec<&String> = files.keys().filter(|name| name.ends_with("/Makefile")).collect();
    names.sort();
    let mut out = BufWriter::new(io::stdout().lock());
    let from = Instant::now();
    let written = match variable.as_str() {
        "--list" => list(&mut out, &files, &names),
        variable => values(&mut out, &files, &names, variable),
    };
    if written.is_err() {
        return ExitCode::from(1);
    }
    eprintln!("{}", from.elapsed().as_micros());
    ExitCode::SUCCESS
}
