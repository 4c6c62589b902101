//! The cases of the vectors, section by section. All are deterministic.

mod batch;
mod bundle;
mod climb;
pub mod damage;
mod deliver;
pub mod examples;
mod holdback;
mod issue;
mod judge;
mod page;
mod tidy_up;
mod view;
pub mod world;

use crate::script::{Case, Machine};
use crate::Tables;

/// Cases with the lines to print for them.
#[derive(Default)]
pub struct Script {
    machine: Machine,
    pub cases: Vec<String>,
    pub answers: Vec<String>,
}

impl Script {
    /// Runs one case and hands back the line to print.
    pub fn push(&mut self, case: Case) -> &str {
        let in_grammar = case.fits() && self.machine.takes(&case);
        assert!(in_grammar, "the grammar has no such line");
        self.cases.push(case.line());
        self.answers.push(self.machine.run(&case));
        self.answers.last().map_or("", String::as_str)
    }

    pub fn extend(&mut self, cases: impl IntoIterator<Item = Case>) {
        for case in cases {
            self.push(case);
        }
    }

    pub fn load(&mut self, bytes: &[u8]) {
        self.push(Case::Load(bytes.to_vec()));
    }

    /// Loads a file into a buffer of this length.
    pub fn load_in(&mut self, file: &[u8], length: usize) {
        self.load(file);
        self.resize(length);
    }

    pub fn resize(&mut self, length: usize) {
        self.push(Case::Resize(length as u16));
    }

    pub fn deliver(&mut self, op: &[u8]) -> &str {
        self.push(Case::Deliver(op.to_vec()))
    }

    pub fn open(&mut self, bundle: &[u8]) -> &str {
        self.push(Case::OpenBundle(bundle.to_vec()))
    }

    /// Delivers with such a holdback.
    pub fn deliver_holdback(&mut self, op: &[u8], holdback: &[u8]) -> &str {
        self.push(Case::DeliverHoldback(op.to_vec(), holdback.to_vec()))
    }

    /// Delivers with the holdback as the last delivery with one left it.
    pub fn deliver_next(&mut self, op: &[u8]) -> &str {
        let holdback = self.holdback().to_vec();
        self.deliver_holdback(op, &holdback)
    }

    /// Climbs from a parent to a node.
    pub fn climb(&mut self, parent: u16, node: u16) -> &str {
        self.push(Case::Climb(parent, node))
    }

    /// Delivers with such a page.
    pub fn deliver_page(&mut self, op: &[u8], page: &Tables) -> &str {
        self.push(Case::DeliverPage(op.to_vec(), page.clone()))
    }

    /// Delivers with the page as the last call with one left it.
    pub fn deliver_on(&mut self, op: &[u8]) -> &str {
        let page = self.page().clone();
        self.push(Case::DeliverPage(op.to_vec(), page))
    }

    pub fn buffer(&self) -> &[u8] {
        &self.machine.buffer
    }

    /// What the last delivery with a holdback left there.
    pub fn holdback(&self) -> &[u8] {
        &self.machine.holdback
    }

    /// What the last call with a page left in its tables.
    pub fn page(&self) -> &Tables {
        &self.machine.page
    }

    /// Adds the cases of a section; false if there is none of this name.
    pub fn section(&mut self, name: &str) -> bool {
        match name {
            "deliver" => deliver::write(self),
            "judge" => judge::write(self),
            "issue" => issue::write(self),
            "view" => view::write(self),
            "bundle" => bundle::write(self),
            "holdback" => holdback::write(self),
            "climb" => climb::write(self),
            "page" => page::write(self),
            "batch" => batch::write(self),
            "tidy" => tidy_up::write(self),
            _ => return false,
        }
        true
    }
}
