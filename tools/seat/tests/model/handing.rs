//! Making, meeting, bundles and post.

use crate::damage::{cut_or_extend, damage, flip};
use crate::foreseen::*;
use crate::issuing::ISSUING;
use crate::play::{log_name, Play};
use crate::said::Done;
use outline_model::{Vector, HOLDBACK_LEN, OP_LEN};

impl Play {
    /// A log that is there is kept, and one that is not there is made.
    pub fn make(&mut self) {
        let empty = file_of(&lent(&[]).expect("an empty log is made"));
        let made = || Done::default().leaving("other", empty.clone());
        self.play("new --plain other", Ok(made()));
        self.play_failing("new --plain other");
        self.play_failing(&format!("new --plain {}", log_name(self.seats[0])));
        self.folder.put("other", b"anything");
        self.play("new --plain --force other", Ok(made()));
        self.folder.put("other", &[]);
        self.play("new --plain other", Ok(made()));
        self.folder.remove("other");
        let command = self.rng.pick(&ISSUING);
        let seat = self.some_seat();
        let request = self.request(command, seat);
        self.play_failing(&request.line("", "other"));
    }

    pub fn meet_some(&mut self) {
        let mut seats = self.seats.clone();
        self.rng.shuffle(&mut seats);
        if self.rng.one_in(2) {
            seats.truncate(2);
        }
        self.meet(&seats);
    }

    pub fn meet(&mut self, seats: &[u8]) {
        let files: Vec<Vec<u8>> = seats.iter().map(|&seat| self.file(seat)).collect();
        let all = met(&files);
        assert!(self.wild || all.is_ok(), "honest logs agree");
        let done = all.map(|all| {
            let mut done = Done::default();
            let now = held(&all).iter().map(|&it| usize::from(it)).sum::<usize>();
            for (&seat, file) in seats.iter().zip(&files) {
                let before: usize = held(file).iter().map(|&it| usize::from(it)).sum();
                done.out
                    .extend(format!("{} {now}\n", now - before).into_bytes());
                done = done.leaving(&log_name(seat), all.clone());
            }
            done
        });
        let names: String = seats
            .iter()
            .map(|&it| format!(" {}", log_name(it)))
            .collect();
        self.play(&format!("meet --plain{names}"), done);
    }

    /// Counts for a bundle: those of a log for most of the time, or near to them.
    pub fn some_counts(&mut self, of: &[u8]) -> Vector {
        let counts = held(of);
        match self.rng.below(8) {
            0 => [0; 8],
            1 => counts.map(|_| self.rng.byte()),
            2 | 3 => counts.map(|count| {
                let (less, more) = (self.rng.below(3) as u8, self.rng.below(3) as u8);
                count.saturating_sub(less).saturating_add(more)
            }),
            _ => counts,
        }
    }

    pub fn bundle(&mut self, from: u8) {
        const OUT: &str = "made.bundle";
        let to = self.some_seat();
        let (counts, option) = match self.rng.below(4) {
            0 => ([0; 8], String::new()),
            1 => (
                held(&self.file(to)),
                format!(" --for-file {}", log_name(to)),
            ),
            _ => {
                let counts = self.some_counts(&self.file(to));
                (counts, format!(" --for {}", commas(&counts)))
            }
        };
        let bundle = match option.contains("--for-file") {
            true => lent(&self.file(to)).and_then(|_| bundle_of(&self.file(from), counts)),
            false => bundle_of(&self.file(from), counts),
        };
        if self.rng.one_in(2) {
            let (operand, input) = self.operand(from);
            let done = bundle.map(|bundle| Done::default().stream(bundle));
            return self.play(&format!("bundle --plain{option} {operand}{input}"), done);
        }
        self.folder.remove(OUT);
        let line = format!("bundle --plain{option} --out {OUT} {}", log_name(from));
        let done = bundle.map(|bundle| {
            let ops = (bundle.len() - head_len(&bundle)) / OP_LEN;
            Done::text(format!("{ops} {}\n", bundle.len())).leaving(OUT, bundle)
        });
        let made = done.is_ok();
        self.play(&line, done);
        if made {
            self.play_failing(&line);
        }
    }

    /// Changes a bundle that the model made, so that it may be refused. Among honest
    /// seats no op in it changes.
    pub fn change_bundle(&mut self, bundle: &mut Vec<u8>) {
        let head = head_len(bundle);
        match self.rng.below(8) {
            0 => cut_or_extend(&mut self.rng, bundle),
            1 => {
                let mut bodies: Vec<Vec<u8>> =
                    bundle[head..].chunks(OP_LEN).map(<[u8]>::to_vec).collect();
                self.rng.shuffle(&mut bodies);
                bundle.splice(head.., bodies.concat());
            }
            2 if head > 1 => {
                // The first op once more, and its seat's count is 1 higher: where its
                // seat stands in the head say the bits of the seats below.
                let first = bundle[head..head + OP_LEN].to_vec();
                let below = bundle[0] & ((1 << (first[1] - 1)) - 1);
                let at = 1 + below.count_ones() as usize;
                bundle[at] = bundle[at].saturating_add(1);
                bundle.extend(first);
            }
            3 | 4 if self.wild => damage(&mut self.rng, bundle),
            _ => {}
        }
    }

    pub fn open(&mut self, to: u8) {
        const BUNDLE: &str = "came.bundle";
        let from = self.some_seat();
        let file = self.file(to);
        let counts = self.some_counts(&file);
        // Of a damaged log there is none: then it is that of no ops.
        let mut bundle = bundle_of(&self.file(from), counts).unwrap_or(vec![0]);
        self.change_bundle(&mut bundle);
        self.folder.put(BUNDLE, &bundle);
        let name = log_name(to);
        let done = opened(&file, &bundle).map(|new| {
            let before = file_of(&lent(&file).expect("what opens is sound")).len();
            let came = (new.len() - before) / OP_LEN;
            Done::text(format!("{came}\n")).leaving(&name, new)
        });
        match self.rng.one_in(3) {
            true => self.play(&format!("open --plain {name} - < {BUNDLE}"), done),
            false => self.play(&format!("open --plain {name} {BUNDLE}"), done),
        }
    }

    /// Files of ops for a log, in any order.
    pub fn some_post(&mut self, to: u8) -> Vec<Vec<u8>> {
        let from = self.some_seat();
        let from = self.file(from);
        let lacking = ops_beyond(&from, held(&self.file(to)));
        let pool = match lacking.is_empty() || self.rng.one_in(5) {
            true => ops_beyond(&from, [0; 8]),
            false => lacking,
        };
        let files = self.rng.below(5);
        (0..files).map(|_| self.some_ops(&pool)).collect()
    }

    /// A few ops in one file.
    pub fn some_ops(&mut self, pool: &[Vec<u8>]) -> Vec<u8> {
        let mut bytes = Vec::new();
        for _ in 0..1 + self.rng.below(3) {
            let mut op = match pool {
                [] => vec![0; OP_LEN],
                _ => pool[self.rng.below(pool.len())].clone(),
            };
            if self.wild && self.rng.one_in(6) {
                flip(&mut self.rng, &mut op);
            }
            bytes.extend(op);
        }
        match self.rng.below(50) {
            // As a column of no moves leaves it.
            0 => bytes.clear(),
            1 | 2 => cut_or_extend(&mut self.rng, &mut bytes),
            _ => {}
        }
        bytes
    }

    pub fn post_some(&mut self, to: u8) {
        let offered = self.some_post(to);
        let tray = format!("{}.tray", log_name(to));
        let old = self.folder.get(&tray);
        if self.rng.one_in(8) {
            let mut damaged = old.clone().unwrap_or(vec![0; HOLDBACK_LEN]);
            self.damage_tray(&mut damaged);
            self.folder.put(&tray, &damaged);
            self.post(to, &offered);
            // No command mends it: the old one comes back.
            match old {
                Some(old) => self.folder.put(&tray, &old),
                None => self.folder.remove(&tray),
            }
            return;
        }
        self.post(to, &offered);
    }

    /// Makes a tray one that is none, or, among wild seats, changes any byte.
    pub fn damage_tray(&mut self, tray: &mut Vec<u8>) {
        match self.rng.below(5) {
            0 => tray[0] = 33 + self.rng.below(223) as u8,
            1 => tray.truncate(self.rng.below(HOLDBACK_LEN)),
            2 => tray.push(0),
            3 if self.wild => damage(&mut self.rng, tray),
            _ if tray[0] == 32 => tray.clear(),
            _ => tray[HOLDBACK_LEN - 1] = 1,
        }
    }

    pub fn post(&mut self, to: u8, offered: &[Vec<u8>]) {
        let (name, tray) = (log_name(to), format!("{}.tray", log_name(to)));
        let mut line = format!("post --plain {name} {tray}");
        for (at, ops) in offered.iter().enumerate() {
            let from = format!("{at}.op");
            self.folder.put(&from, ops);
            line = line + " " + &from;
        }
        let old = self.folder.get(&tray);
        let posted = posted(&self.file(to), old.as_deref(), offered);
        let done = posted.map(|it| {
            let done = Done::text(it.text).leaving(&name, it.file);
            done.leaving(&tray, it.tray)
        });
        self.play(&line, done);
        for at in 0..offered.len() {
            self.folder.remove(&format!("{at}.op"));
        }
    }
}
