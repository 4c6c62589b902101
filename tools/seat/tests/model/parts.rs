//! The parts of the play.

use crate::damage::damage;
use crate::foreseen::*;
use crate::issuing::ISSUING;
use crate::play::{log_name, Play};
use crate::said::Done;
use outline_model::rng::Rng;
use outline_model::{HEADER_LEN, MAX_FILE, OP_LEN};

impl Play {
    /// Some seats work, meet and hand over ops, and all meet in the end.
    pub fn history(&mut self, seed: u64, steps: usize, wild: bool) {
        let mut seats = [1, 2, 3, 4, 5, 6, 7, 8];
        Rng::new(seed).shuffle(&mut seats);
        let count = 3 + (seed % 2) as usize;
        self.begin(seed, &seats[..count], wild);
        for &seat in &seats[..count] {
            // Some begin with a file that has no bytes yet.
            self.folder.put(&log_name(seat), &[]);
            if self.rng.one_in(2) {
                let name = log_name(seat);
                let empty = file_of(&lent(&[]).expect("an empty log is made"));
                let done = Done::default().leaving(&name, empty);
                self.play(&format!("new --plain {name}"), Ok(done));
            }
        }
        for _ in 0..steps {
            self.step();
        }
        self.make();
        self.meet(&seats[..count]);
        for &seat in &seats[..count] {
            self.look_all(seat);
        }
    }

    pub fn step(&mut self) {
        let seat = self.some_seat();
        match self.rng.below(100) {
            0..=59 => self.issue(seat),
            60..=64 => self.meet_some(),
            65..=70 => self.bundle(seat),
            71..=78 => self.open(seat),
            79..=88 => self.post_some(seat),
            _ => {
                let way = self.rng.below(5);
                self.look(seat, way);
            }
        }
    }

    /// The logs of the play, as they are now.
    pub fn logs(&self) -> Vec<Vec<u8>> {
        self.seats.iter().map(|&seat| self.file(seat)).collect()
    }

    /// A seat issues all its 255 ops.
    pub fn full_seat(&mut self) {
        self.begin(1000, &[5, 6], false);
        self.folder.put("s5", &[]);
        self.folder.put("s6", &[]);
        for _ in 0..21 {
            self.issue_plain(5, &Request::of("add", 5, &[0]));
        }
        let first = 256 * 5 + 1;
        for round in 0..16 {
            // The last column would end with op 261, and is refused.
            let mut numbers: Vec<u32> = (first + 1..first + 16).collect();
            numbers.push([0, first][round % 2]);
            self.issue_plain(5, &Request::of("column", 5, &numbers));
        }
        for round in 0..10 {
            self.issue_plain(5, &Request::of("move", 5, &[first + 1 + round, 0]));
        }
        // Only a column of no moves is accepted now; 9 comes before what is wrong.
        self.issue_plain(5, &Request::of("column", 5, &[first]));
        for command in ISSUING {
            let request = self.request(command, 5);
            self.issue_plain(5, &request);
        }
        self.issue_plain(5, &Request::of("add", 6, &[first]));
        self.look_all(5);
    }

    /// Its ops come by post from the last to the first, more than a tray takes, and
    /// then in any order.
    pub fn full_tray(&mut self) {
        let mut ops = ops_beyond(&self.file(5), [0; 8]);
        let waiting: Vec<Vec<u8>> = ops[1..33].iter().rev().cloned().collect();
        self.post(6, &waiting);
        self.post(6, &[ops[33].clone()]);
        self.post(6, &[ops[1].clone()]);
        self.post(6, &[]);
        self.post(6, &[ops[0].clone()]);
        self.post(6, &[ops[33].clone()]);
        self.look_all(6);
        // The middle ones come in a bundle, and those that wait follow them.
        self.post(6, &[ops[100..120].concat()]);
        let bundle = ops[34..100].concat();
        let bundle = [&[1 << 4, 66], &bundle[..]].concat();
        self.folder.put("middle", &bundle);
        let done = opened(&self.file(6), &bundle).map(|new| {
            let done = Done::text("66\n".into());
            done.leaving("s6", new)
        });
        self.play("open --plain s6 middle", done);
        self.post(6, &[]);
        let rng = &mut self.rng;
        rng.shuffle(&mut ops);
        for op in ops {
            self.post(6, &[op]);
        }
        self.look_all(6);
        self.meet(&[6, 5]);
    }

    /// Logs in which something is damaged: all commands on each.
    pub fn damaged_logs(&mut self, logs: &[Vec<u8>], rounds: usize) {
        self.begin(2000, &[1, 2], true);
        for round in 0..rounds {
            let mut log = logs[self.rng.below(logs.len())].clone();
            self.folder.put("s2", &log);
            match round % 10 {
                // Short ones, of no bytes too, and one that is longer than any log.
                0 => log.truncate(self.rng.below(34)),
                1 => log.resize(MAX_FILE + self.rng.below(3), 0),
                2..=5 => self.damage_op(&mut log),
                _ => damage(&mut self.rng, &mut log),
            }
            self.folder.put("s1", &log);
            self.folder.remove("s1.tray");
            self.tally.damaged[usize::from(lent(&log).is_err())] += 1;
            self.damaged_log();
        }
    }

    /// Changes kind, node or parent of an op a little: what a log is most often sound
    /// with.
    pub fn damage_op(&mut self, log: &mut [u8]) {
        let ops = (log.len() - HEADER_LEN) / OP_LEN;
        let op = HEADER_LEN + OP_LEN * self.rng.below(ops);
        let at = op + self.rng.pick(&[0, 3, 5, 5]);
        log[at] = log[at].wrapping_add(self.rng.pick(&[1, 2, u8::MAX]));
    }

    pub fn damaged_log(&mut self) {
        self.look(1, 0);
        for command in ISSUING {
            let request = self.request(command, 1);
            self.issue_plain(1, &request);
        }
        self.open(1);
        self.post_some(1);
        self.meet(&[1, 2]);
        self.meet(&[2, 1]);
        let seat = self.some_seat();
        self.bundle(seat);
        let way = 1 + self.rng.below(4);
        self.look(1, way);
    }
}
