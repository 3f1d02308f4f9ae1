//! What the subcommands of mergejoin do, as it is written in Rust with serde_json:
//! reads the array on standard input, prints the result or one line of refusal, and
//! ends with the same status. The lines of refused input and words are its own, and
//! it does not check that numbers are whole or how long the input is.

mod join;
mod library;
mod merge;
mod patch;
mod pointer;
mod rewrite;

use serde::Serialize;
use serde_json::Value;
use std::env;
use std::io::{self, Read, Write};
use std::process::ExitCode;

/// Why there is no result, with the line about it.
pub enum Refused {
    /// The work itself is refused.
    Work(String),
    /// The input or a word has a wrong form.
    Form(String),
    Stream(io::Error),
}

fn read_input() -> Result<Vec<u8>, Refused> {
    let mut input = Vec::new();
    let read = io::stdin().lock().read_to_end(&mut input);
    read.map_err(Refused::Stream)?;
    Ok(input)
}

fn read_parts() -> Result<Vec<Value>, Refused> {
    serde_json::from_slice(&read_input()?).map_err(|fault| Refused::Form(format!("input: {fault}")))
}

fn answer(words: &[&str]) -> Result<String, Refused> {
    if let ["library", job, times] = words {
        let times = times.parse().map_err(|_| Refused::Form("no number".into()))?;
        return library::run(job, times, &read_input()?);
    }
    let mut parts = read_parts()?;
    let result = match (words, parts.as_mut_slice()) {
        (["get", pointer], [document]) => pointer::get(document, pointer)?.take(),
        (["patch"], [document, Value::Array(operations)]) => {
            patch::apply(document, operations)?;
            document.take()
        }
        (["merge"], [document, patches @ ..]) => {
            for patch in patches {
                merge::merge(document, patch.take());
            }
            document.take()
        }
        (["join"], patches) => join::join(patches)?,
        (["replay"], [document, patches @ ..]) => {
            if !patches.is_empty() {
                merge::merge(document, join::join(patches)?);
            }
            document.take()
        }
        (["rewrite"], [document, patch]) => {
            return Ok(compact(&rewrite::rewrite(document, patch.take())));
        }
        _ => return Err(Refused::Form("unknown words, or wrong shape".into())),
    };
    Ok(compact(&result))
}

fn compact(result: &impl Serialize) -> String {
    serde_json::to_string(result).expect("names are texts")
}

fn write(mut text: String) -> Result<(), Refused> {
    text.push('\n');
    let written = io::stdout().lock().write_all(text.as_bytes());
    written.map_err(Refused::Stream)
}

fn main() -> ExitCode {
    let words: Vec<String> = env::args().skip(1).collect();
    let words: Vec<&str> = words.iter().map(String::as_str).collect();
    let (status, line) = match answer(&words).and_then(write) {
        Ok(()) => return ExitCode::SUCCESS,
        Err(Refused::Work(line)) => (1, line),
        Err(Refused::Form(line)) => (2, line),
        Err(Refused::Stream(fault)) => (3, fault.to_string()),
    };
    eprintln!("{line}");
    ExitCode::from(status)
}
