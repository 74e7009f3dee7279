//! A plain program to compare `portsd` with: `plain_make MAKEFILE VARIABLE TIMES` evaluates a makefile
//! of assignments with references, without modifiers, so many times and prints how long the variable's
//! value is. `expansion.sh` builds and runs it. It proves nothing and has none of the limits.
use std::collections::HashMap;
use std::env;
use std::fs;
use std::process::ExitCode;

#[derive(Default)]
struct Make {
    variables: HashMap<String, String>,
}

impl Make {
    fn evaluate(&mut self, text: &str) {
        for line in text.lines() {
            let line = line.split('#').next().unwrap_or("").trim();
            if let Some((name, value)) = line.split_once('=') {
                self.assign(name, value.trim_start());
            }
        }
    }

    fn assign(&mut self, name: &str, value: &str) {
        let word = name.trim_end_matches([':', '+', '?']);
        let key = self.expand(word.trim());
        match &name[word.len()..] {
            ":" => {
                let expanded = self.expand(value);
                self.variables.insert(key, expanded);
            }
            "+" => {
                let text = self.variables.entry(key).or_default();
                if !text.is_empty() {
                    text.push(' ');
                }
                text.push_str(value);
            }
            "?" => {
                self.variables.entry(key).or_insert_with(|| value.to_string());
            }
            _ => {
                self.variables.insert(key, value.to_string());
            }
        }
    }

    fn expand(&self, text: &str) -> String {
        let mut joined = String::new();
        self.expand_onto(text, &mut joined);
        joined
    }

    fn expand_onto(&self, text: &str, joined: &mut String) {
        let mut rest = text;
        while let Some(at) = rest.find('$') {
            joined.push_str(&rest[..at]);
            rest = &rest[at + 1..];
            if let Some(behind) = rest.strip_prefix('$') {
                joined.push('$');
                rest = behind;
            } else if let Some((name, behind)) = rest.strip_prefix('{').and_then(|r| r.split_once('}')) {
                if let Some(value) = self.variables.get(name) {
                    self.expand_onto(value, joined);
                }
                rest = behind;
            } else {
                joined.push('$');
            }
        }
        joined.push_str(rest);
    }
}

fn main() -> ExitCode {
    let words: Vec<String> = env::args().collect();
    let [_, file, variable, times] = words.as_slice() else {
        return ExitCode::from(2);
    };
    let (Ok(text), Ok(times)) = (fs::read_to_string(file), times.parse::<u32>()) else {
        return ExitCode::from(2);
    };
    for _ in 0..times {
        let mut make = Make::default();
        make.evaluate(&text);
        println!("{}", make.expand(&format!("${{{variable}}}")).len());
    }
    ExitCode::SUCCESS
}
