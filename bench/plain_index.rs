//! A plain program to compare `portsd`'s index with. It evaluates makefiles as `plain_tree` does, and keeps a record of
//! each port in memory. It reads what `ports_tree.sh` writes and no more, proves nothing, and has none of the limits.
//! `index.sh` and `serve.sh` build and run it.
//!
//! `plain_index DIRECTORY TIMES` loads the makefiles below the directory. Then it answers each kind of question about
//! all ports so many times, some after a change of one port, and prints a line for each kind: its name, and the
//! microseconds that one of them took.
//!
//! `plain_index --serve PORT KEY` has no file at first, and answers over HTTP (`plain_http.rs`) as `portsd` does, to
//! the tenant with this key.
mod plain_http;
#[allow(dead_code)]
mod plain_tree;

use plain_http::{Reply, Request};
use plain_tree::{Depend, Files, Record, Variables, evaluated, load, split_name};
use std::collections::{BTreeMap, BTreeSet, HashMap, HashSet};
use std::env;
use std::fmt::Write;
use std::hint::black_box;
use std::path::Path;
use std::process::ExitCode;
use std::time::Instant;

/// What is kept of a port: what it is, and the variables of its makefile.
struct Row {
    record: Record,
    variables: Variables,
}

/// The ports by their paths.
type Rows = BTreeMap<String, Row>;

#[derive(Default)]
struct Ports {
    files: Files,
    rows: Rows,
    changed: BTreeSet<String>,
}

impl Ports {
    fn store(&mut self, name: &str, text: String) {
        self.files.insert(name.to_string(), text);
        self.changed.insert(name.to_string());
    }

    fn remove(&mut self, name: &str) {
        self.files.remove(name);
        self.changed.insert(name.to_string());
    }

    /// The rows of all ports. Makefiles that changed are evaluated first.
    fn rows(&mut self) -> &Rows {
        for name in std::mem::take(&mut self.changed) {
            self.renew(&name);
        }
        &self.rows
    }

    fn renew(&mut self, name: &str) {
        let Some(path) = name.strip_prefix("/ports/").and_then(|name| name.strip_suffix("/Makefile")) else {
            return;
        };
        self.rows.remove(path);
        if self.files.contains_key(name) {
            let make = evaluated(&self.files, name);
            if let Some(record) = make.record() {
                self.rows.insert(path.to_string(), Row { record, variables: make.variables });
            }
        }
    }
}

/// Adds a text as JSON has it.
fn add_text(out: &mut String, text: &str) {
    out.push('"');
    if text.bytes().all(|byte| byte >= b' ' && byte != b'"' && byte != b'\\') {
        out.push_str(text);
    } else {
        for c in text.chars() {
            match c {
                '"' | '\\' => out.extend(['\\', c]),
                c if c < ' ' => write!(out, "\\u{:04x}", c as u32).unwrap_or_default(),
                c => out.push(c),
            }
        }
    }
    out.push('"');
}

/// Adds an object of texts to a list that isn't closed yet.
fn add_object(out: &mut String, members: &[(&str, &str)]) {
    out.push_str(if out.ends_with('[') { "{" } else { ",{" });
    for (at, (name, text)) in members.iter().enumerate() {
        out.push_str(if at == 0 { "\"" } else { ",\"" });
        out.push_str(name);
        out.push_str("\":");
        add_text(out, text);
    }
    out.push('}');
}

/// A list of texts.
fn texts(all: &[impl AsRef<str>]) -> String {
    let mut out = String::from("[");
    for text in all {
        if out.len() > 1 {
            out.push(',');
        }
        add_text(&mut out, text.as_ref());
    }
    out + "]"
}

fn packages(rows: &Rows, admits: impl Fn(&str) -> bool) -> String {
    let mut out = String::from("{\"packages\":[");
    for Row { record, .. } in rows.values() {
        for package in record.packages.iter().filter(|package| admits(&package.name)) {
            let (name, subpackage) = (&package.name, &package.subpackage);
            add_object(&mut out, &[("name", name), ("path", &record.path), ("subpackage", subpackage)]);
        }
    }
    out + "]}"
}

fn list(rows: &Rows) -> String {
    packages(rows, |_| true)
}

/// The numbers of a version.
fn numbers(version: &str) -> impl Iterator<Item = u64> + '_ {
    version.split('.').map(|part| part.parse().unwrap_or(0))
}

/// Whether a package has this version or a later one.
fn is_from(name: &str, least: &str) -> bool {
    split_name(name).is_some_and(|(_, version)| numbers(version).ge(numbers(least)))
}

/// The packages that a spec `STEM-*` or `STEM->=VERSION` admits. The stem `STEM` is any.
fn matching(rows: &Rows, spec: &str) -> String {
    let (wanted, least) = spec.split_once("->=").unwrap_or((spec.trim_end_matches("-*"), ""));
    packages(rows, |name| {
        let stem = split_name(name).map_or("", |(stem, _)| stem);
        (wanted == "STEM" || wanted == stem) && (least.is_empty() || is_from(name, least))
    })
}

/// The path that an item `PATH` or `PATH>=VERSION` names, and the least version.
fn target(item: &str) -> (&str, &str) {
    item.split_once('>').map_or((item, ""), |(path, least)| (path, least.trim_start_matches('=')))
}

/// The status of an item with this least version, if this is the port that it names.
fn status(least: &str, named: Option<&Row>) -> &'static str {
    match named {
        None => "NoPort",
        Some(row) if least.is_empty() || is_from(&row.record.packages[0].name, least) => "Ok",
        Some(_) => "SpecMismatch",
    }
}

fn deps(rows: &Rows, path: &str) -> Option<String> {
    let mut out = String::from("{\"deps\":[");
    for Depend { item, kind, subpackage } in &rows.get(path)?.record.depends {
        let (path, least) = target(item);
        let (status, path) = (("status", status(least, rows.get(path))), ("target", path));
        add_object(&mut out, &[("item", item), ("kind", kind), status, ("subpackage", subpackage), path]);
    }
    Some(out + "]}")
}

fn rdeps(rows: &Rows, asked: &str) -> String {
    let mut out = String::from("{\"rdeps\":[");
    for Row { record, .. } in rows.values() {
        let naming = record.depends.iter().filter(|depend| target(&depend.item).0 == asked);
        for Depend { item, kind, subpackage } in naming {
            let status = ("status", status(target(item).1, rows.get(asked)));
            let path = ("path", record.path.as_str());
            add_object(&mut out, &[("item", item), ("kind", kind), path, status, ("subpackage", subpackage)]);
        }
    }
    out + "]}"
}

/// The paths of all ports that reach one over dependencies whose status is `Ok`.
fn reaching(rows: &Rows, asked: &str) -> String {
    let mut dependents: HashMap<&str, Vec<(&str, &str)>> = HashMap::new();
    for Row { record, .. } in rows.values() {
        for depend in &record.depends {
            let (path, least) = target(&depend.item);
            dependents.entry(path).or_default().push((&record.path, least));
        }
    }
    let (mut reached, mut left) = (HashSet::new(), vec![asked]);
    while let Some(path) = left.pop() {
        let row = rows.get(path);
        for (dependent, least) in dependents.get(path).into_iter().flatten() {
            if status(least, row) == "Ok" && reached.insert(*dependent) {
                left.push(dependent);
            }
        }
    }
    let mut paths: Vec<&str> = reached.into_iter().collect();
    paths.sort_unstable();
    format!("{{\"rdeps\":{}}}", texts(&paths))
}

fn variable(rows: &Rows, path: &str, name: &str) -> Option<String> {
    let value = rows.get(path)?.variables.value(name);
    let mut out = format!("{{\"defined\":{},\"value\":", value.is_some());
    add_text(&mut out, &value.unwrap_or_default());
    Some(out + "}")
}

fn port(rows: &Rows, path: &str) -> Option<String> {
    let record = &rows.get(path)?.record;
    let mut out = format!("{{\"categories\":{},\"depends\":[", texts(&record.categories));
    for Depend { item, kind, subpackage } in &record.depends {
        add_object(&mut out, &[("item", item), ("kind", kind), ("subpackage", subpackage)]);
    }
    let (chosen, flavors) = (texts(&record.chosen), texts(&record.flavors));
    out.push_str(&format!("],\"flavor\":{chosen},\"flavors\":{flavors},\"maintainer\":"));
    add_text(&mut out, &record.maintainer);
    out.push_str(",\"packages\":[");
    for package in &record.packages {
        let (name, comment, subpackage) = (&package.name, &package.comment, &package.subpackage);
        add_object(&mut out, &[("comment", comment), ("name", name), ("subpackage", subpackage)]);
    }
    out.push_str("],\"path\":");
    add_text(&mut out, &record.path);
    Some(out + &format!(",\"pseudo\":{}}}", texts(&record.pseudo)))
}

/// The reply to a request.
fn reply(ports: &mut Ports, request: &mut Request) -> Reply {
    let asked = |name| request.parameter(name);
    let body = match (request.method.as_str(), request.path.as_str()) {
        ("PUT", "/v1/file") => {
            ports.store(&asked("name"), std::mem::take(&mut request.body));
            Some("{\"stored\":true}".to_string())
        }
        ("GET", "/v1/list") => Some(list(ports.rows())),
        ("GET", "/v1/match") => Some(matching(ports.rows(), &asked("spec"))),
        ("GET", "/v1/deps") => deps(ports.rows(), &asked("path")),
        ("GET", "/v1/rdeps") if asked("depth") == "all" => Some(reaching(ports.rows(), &asked("path"))),
        ("GET", "/v1/rdeps") => Some(rdeps(ports.rows(), &asked("path"))),
        ("GET", "/v1/var") => variable(ports.rows(), &asked("path"), &asked("name")),
        ("GET", "/v1/port") => port(ports.rows(), &asked("path")),
        _ => return ("404 Not Found", "{\"error\":\"Route\"}".to_string()),
    };
    match body {
        Some(body) => ("200 OK", body),
        None => ("404 Not Found", "{\"error\":\"NoPort\"}".to_string()),
    }
}

fn serve(port: &str, key: &str) -> Option<()> {
    let mut ports = Ports::default();
    let answer = |request: &mut Request| {
        if request.key == key {
            reply(&mut ports, request)
        } else {
            ("403 Forbidden", "{\"error\":\"Key\"}".to_string())
        }
    };
    plain_http::serve(port.parse().ok()?, answer).ok()
}

/// Prints how many microseconds one of so many takes.
fn tell(kind: &str, times: usize, mut ask: impl FnMut(usize) -> String) {
    let from = Instant::now();
    for time in 0..times {
        black_box(ask(time));
    }
    println!("{kind} {:.3}", from.elapsed().as_secs_f64() * 1_000_000.0 / times as f64);
}

const SPEC: &str = "port1*-*";
const ASKED: &str = "category0/port0";

fn measure(top: &str, times: &str) -> Option<()> {
    let times = times.parse().ok()?;
    let mut ports = Ports::default();
    load(Path::new(top), Path::new(top), &mut ports.files).ok()?;
    let names: Vec<String> = ports.files.keys().cloned().collect::<BTreeSet<_>>().into_iter().collect();
    let name_at = |time: usize| &names[time * 7 % names.len()];
    ports.changed.extend(names.iter().cloned());
    ports.rows();
    tell("again", times, |_| list(ports.rows()));
    tell("depended", times, |_| deps(ports.rows(), ASKED).unwrap_or_default());
    tell("depending", times, |_| rdeps(ports.rows(), ASKED));
    tell("reached", times, |_| reaching(ports.rows(), ASKED));
    tell("changed", times, |time| {
        let text = &ports.files[name_at(time)];
        let text = text.replacen("DISTNAME = port", &format!("DISTNAME = port{time}"), 1);
        ports.store(name_at(time), text);
        matching(ports.rows(), SPEC)
    });
    tell("items", times, |time| {
        let text = ports.files[name_at(time)].clone() + "RUN_DEPENDS += category0/port1\n";
        ports.store(name_at(time), text);
        matching(ports.rows(), SPEC)
    });
    tell("added", times, |time| {
        let text = ports.files[&names[0]].clone();
        ports.store(&format!("/ports/added/port{time}/Makefile"), text);
        matching(ports.rows(), SPEC)
    });
    tell("removed", times, |time| {
        ports.remove(name_at(time));
        matching(ports.rows(), SPEC)
    });
    Some(())
}

fn main() -> ExitCode {
    let words: Vec<String> = env::args().skip(1).collect();
    let done = match words.iter().map(String::as_str).collect::<Vec<_>>().as_slice() {
        ["--serve", port, key] => serve(port, key),
        [top, times] => measure(top, times),
        _ => None,
    };
    done.map_or(ExitCode::from(2), |()| ExitCode::SUCCESS)
}
