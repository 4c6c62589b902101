//! Writes the cases, or the answers to them, of the named sections.

use outline_model::cases::Script;
use std::io::Write;
use std::process::ExitCode;

fn main() -> ExitCode {
    let arguments: Vec<String> = std::env::args().skip(1).collect();
    let [which, sections] = arguments.as_slice() else {
        return usage();
    };
    let mut script = Script::default();
    if !sections.split(',').all(|name| script.section(name)) {
        return usage();
    }
    let lines = match which.as_str() {
        "stdin" => script.cases,
        "stdout" => script.answers,
        _ => return usage(),
    };
    let text: String = lines.into_iter().map(|line| line + "\n").collect();
    match std::io::stdout().write_all(text.as_bytes()) {
        Ok(()) => ExitCode::SUCCESS,
        Err(_) => ExitCode::FAILURE,
    }
}

fn usage() -> ExitCode {
    eprintln!("usage: vectors stdin|stdout SECTION[,SECTION..]");
    eprintln!("sections: deliver, judge, issue, view, bundle, holdback, climb, page, batch, tidy");
    ExitCode::FAILURE
}
