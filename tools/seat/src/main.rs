//! `seat`: outlines on real files, for people. Every change of a log is a call of
//! the verified library; this program brings files, arguments and words.

#![forbid(unsafe_code)]

mod ask;
mod claim;
mod commands;
mod drawing;
mod input;
mod judged;
mod name;
mod report;
mod stops;
mod trouble;
mod unsound;

use std::env;
use std::process::ExitCode;

fn main() -> ExitCode {
    let args: Vec<_> = env::args_os().skip(1).collect();
    let plain = ask::is_plain(&args);
    match commands::run(args).and_then(|report| report.tell()) {
        Ok(()) => ExitCode::SUCCESS,
        Err(trouble) => {
            trouble.tell(plain);
            ExitCode::from(trouble.status())
        }
    }
}
