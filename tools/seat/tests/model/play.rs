//! Commands that are run and compared.

use crate::folder::Folder;
use crate::said::{refused, Foreseen, Said};
use crate::tally::Tally;
use outline_model::rng::Rng;
use std::collections::BTreeSet;
use std::process::Command;

const SEAT: &str = env!("CARGO_BIN_EXE_seat");

/// The name of the log of a seat.
pub fn log_name(seat: u8) -> String {
    format!("s{seat}")
}

pub struct Play {
    pub folder: Folder,
    pub rng: Rng,
    pub seed: u64,
    /// Seats, each with a log of its own.
    pub seats: Vec<u8>,
    /// Whether seats issue for each other and ops are forged, so that logs come to
    /// disagree.
    pub wild: bool,
    pub tally: Tally,
}

impl Play {
    pub fn new() -> Play {
        Play {
            folder: Folder::new(),
            rng: Rng::new(0),
            seed: 0,
            seats: Vec::new(),
            wild: false,
            tally: Tally::default(),
        }
    }

    /// Begins anew in an empty folder.
    pub fn begin(&mut self, seed: u64, seats: &[u8], wild: bool) {
        self.folder.clear();
        self.rng = Rng::new(seed);
        self.seed = seed;
        self.seats = seats.to_vec();
        self.wild = wild;
    }

    /// Runs a command, as a line for a shell would have it: `check - < s1`.
    pub fn run(&mut self, line: &str) -> Said {
        let (command, input) = match line.split_once(" < ") {
            Some((command, input)) => (command, Some(input)),
            None => (line, None),
        };
        let output = Command::new(SEAT)
            .args(command.split(' '))
            .current_dir(&self.folder.path)
            .env_remove("SEAT")
            .stdin(self.folder.input(input))
            .output()
            .unwrap_or_else(|why| panic!("{SEAT} {line}: {why}"));
        Said {
            status: output.status.code(),
            out: output.stdout,
            err: output.stderr,
        }
    }

    /// Runs a command that the model has done, and compares.
    pub fn play(&mut self, line: &str, foreseen: Foreseen) {
        let said = self.run(line);
        self.tally.count(line, &foreseen);
        let model = match &foreseen {
            Ok(done) => done.said(),
            Err(number) => refused(*number),
        };
        assert!(
            said == model,
            "{}\nthe program: {said}\nthe model:   {model}",
            self.place(line)
        );
        if let Ok(done) = foreseen {
            self.folder.files.extend(done.files);
        }
        self.compare_files(line);
    }

    /// Runs a command that can read or write no file that it should. The words are
    /// the program's or the system's.
    pub fn play_failing(&mut self, line: &str) {
        let said = self.run(line);
        self.tally.commands += 1;
        self.tally.failed += 1;
        assert!(
            said.status == Some(3) && said.out.is_empty() && !said.err.is_empty(),
            "{}\nthe program: {said}\nwanted:      status 3, and why on standard error alone",
            self.place(line)
        );
        self.compare_files(line);
    }

    /// Every file of the folder, and no other, must be as the model has it.
    pub fn compare_files(&self, line: &str) {
        let disk = self.folder.on_disk();
        let names: BTreeSet<&String> = disk.keys().chain(self.folder.files.keys()).collect();
        let shown = |bytes: Option<&Vec<u8>>| {
            bytes.map_or("not there".into(), |it| it.escape_ascii().to_string())
        };
        for name in names {
            let (program, model) = (disk.get(name), self.folder.files.get(name));
            assert!(
                program == model,
                "{}\n{name}, the program: {}\n{name}, the model:   {}",
                self.place(line),
                shown(program),
                shown(model)
            );
        }
    }

    pub fn place(&self, line: &str) -> String {
        let (seed, command) = (self.seed, self.tally.commands);
        format!("seed {seed}, command {command}: seat {line}")
    }

    pub fn file(&self, seat: u8) -> Vec<u8> {
        self.folder.bytes(&log_name(seat))
    }

    pub fn some_seat(&mut self) -> u8 {
        self.rng.pick(&self.seats)
    }

    /// A log as an operand: by its name, or now and then on standard input.
    pub fn operand(&mut self, seat: u8) -> (String, String) {
        match self.rng.one_in(6) {
            true => ("-".into(), format!(" < {}", log_name(seat))),
            false => (log_name(seat), String::new()),
        }
    }
}
