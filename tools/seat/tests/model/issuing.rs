//! Issuing.

use crate::foreseen::{nodes, path_of, Request};
use crate::play::{log_name, Play};
use crate::said::Done;
use outline_model::MAX_BATCH;

pub const ISSUING: [&str; 4] = ["add", "remove", "move", "column"];

/// Numbers that are no node. Some would be one, or the root, if their high bits were
/// lost.
pub const NO_NODES: [u32; 9] = [
    1,
    255,
    256,
    2304,
    65535,
    65536,
    65536 + 257,
    70000,
    u32::MAX,
];
/// Numbers that are no seat; some would be one if their high bits were lost.
pub const NO_SEATS: [u32; 8] = [0, 9, 255, 256, 257, 300, 65535, 65537];

impl Play {
    /// A node of a file for most of the time; else any number. Removed ones are rare,
    /// or in the end there would be nothing but them.
    pub fn some_node(&mut self, file: &[u8]) -> u32 {
        let removed_too = self.rng.one_in(6);
        let nodes = nodes(file, removed_too);
        match self.rng.below(24) {
            0 => self.rng.pick(&NO_NODES),
            1 => 256 * (1 + self.rng.below(8) as u32) + self.rng.below(20) as u32,
            2 => 0,
            _ if nodes.is_empty() => 0,
            _ => self.rng.pick(&nodes),
        }
    }

    /// Node and parent of a move. Some are one node, and some parents lie below.
    pub fn some_move(&mut self, file: &[u8]) -> Vec<u32> {
        let node = self.some_node(file);
        let other = match self.rng.below(12) {
            0 => node,
            1 => {
                let above = path_of(file, node).unwrap_or(vec![0]);
                return vec![self.rng.pick(&above).into(), node];
            }
            2 => 0,
            _ => self.some_node(file),
        };
        vec![node, other]
    }

    /// Nodes and parent of a column. In most of them all nodes are good: of many
    /// arbitrary ones some node is wrong nearly always.
    pub fn some_column(&mut self, file: &[u8]) -> Vec<u32> {
        let size = self.rng.pick(&[0, 1, 2, 2, 3, 3, 5, 16, 17]);
        let good = nodes(file, false);
        if good.is_empty() || self.rng.one_in(4) {
            return (0..=size).map(|_| self.some_node(file)).collect();
        }
        let mut numbers: Vec<u32> = (0..size).map(|_| self.rng.pick(&good)).collect();
        let parent = self.rng.pick(&[0, good[0]]);
        numbers.retain(|&node| node != parent || size > MAX_BATCH);
        numbers.push(parent);
        numbers
    }

    /// A seat that issues: mostly the one whose log it is.
    pub fn issuing_seat(&mut self, owner: u8) -> u32 {
        match self.rng.below(24) {
            0 => self.rng.pick(&NO_SEATS),
            1 | 2 if self.wild => self.some_seat().into(),
            _ => owner.into(),
        }
    }

    pub fn request(&mut self, command: &'static str, owner: u8) -> Request {
        let file = self.file(owner);
        let seat = self.issuing_seat(owner);
        let numbers = match command {
            "add" | "remove" => vec![self.some_node(&file)],
            "move" => self.some_move(&file),
            _ => self.some_column(&file),
        };
        Request::of(command, seat, &numbers)
    }

    pub fn issue(&mut self, owner: u8) {
        let commands = ["add", "add", "add", "add", "move", "move", "move", "move"];
        let command = match self.rng.below(10) {
            0 => "remove",
            1 => "column",
            _ => self.rng.pick(&commands),
        };
        let request = self.request(command, owner);
        match self.rng.below(8) {
            0 => self.issue_stream(owner, &request),
            1 | 2 => self.issue_out(owner, &request),
            _ => self.issue_plain(owner, &request),
        }
    }

    pub fn issue_plain(&mut self, owner: u8, request: &Request) {
        let name = log_name(owner);
        let issued = request.foresee(&self.file(owner));
        let done = issued.map(|it| Done::text(it.text()).leaving(&name, it.file));
        self.play(&request.line("", &name), done);
    }

    /// The log comes on standard input and goes to standard output.
    pub fn issue_stream(&mut self, owner: u8, request: &Request) {
        let issued = request.foresee(&self.file(owner));
        let done = issued.map(|it| Done::text(it.text()).stream(it.file));
        let line = format!("{} < {}", request.line("", "-"), log_name(owner));
        self.play(&line, done);
    }

    /// The ops go into a file as well, which may be there already.
    pub fn issue_out(&mut self, owner: u8, request: &Request) {
        const OUT: &str = "issued.op";
        if self.rng.one_in(2) {
            self.folder.remove(OUT);
        }
        let name = log_name(owner);
        let line = request.line(&format!(" --out {OUT}"), &name);
        if self.folder.get(OUT).is_some() {
            return self.play_failing(&line);
        }
        let issued = request.foresee(&self.file(owner));
        let done = issued.map(|it| {
            let done = Done::text(it.text()).leaving(&name, it.file);
            // Without an op there is no file of ops.
            match it.ops.is_empty() {
                true => done,
                false => done.leaving(OUT, it.ops),
            }
        });
        self.play(&line, done);
    }
}
