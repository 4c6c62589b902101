//! Calls with a page, by either side.

use crate::work::Side;
use outline::{plain, Refusal};
use outline_bench::careful;
use outline_model::cases::damage::{stained, Entry};
use outline_model::{Answer, Log, Tables, SLOTS};

/// A page that is lent; empty for the calls that have no use for it.
#[derive(Default)]
pub struct Page {
    before: Tables,
    /// What the call makes of it.
    pub tables: Tables,
    /// How many ops are to be taken back, and how many were, unless it was refused.
    pub meant: Option<usize>,
    pub taken: Option<usize>,
}

impl Page {
    /// The page of a log, for a call that takes back so many.
    pub fn of(log: &Log, meant: usize) -> Page {
        Page::lent(Tables::of(log), meant)
    }

    /// One of which the last outcome is wrong, so that all are taken back.
    pub fn untrue(log: &Log) -> Page {
        let tables = stained(&Tables::of(log), Entry::Outcome(SLOTS - 1), 1);
        Page::lent(tables, log.ops().count())
    }

    fn lent(tables: Tables, meant: usize) -> Page {
        Page {
            before: tables.clone(),
            tables,
            meant: Some(meant),
            taken: None,
        }
    }

    /// The page is as it was before the call.
    pub fn turn_back(&mut self) {
        let Page { before, tables, .. } = self;
        tables.order.copy_from_slice(&before.order);
        tables.parents.copy_from_slice(&before.parents);
        tables.outcomes.copy_from_slice(&before.outcomes);
    }

    pub fn deliver(&mut self, buffer: &mut [u8], op: &[u8], side: Side) -> bool {
        let page = &mut self.tables;
        self.taken = match side {
            Side::Library => of_library(plain::page_deliver(buffer, op, &mut lend(page))),
            Side::Rust => of_rust(careful::deliver_page(buffer, op, page.lend())),
        };
        self.taken.is_some()
    }

    pub fn issue_add(
        &mut self,
        buffer: &mut [u8],
        replica: u8,
        parent: u16,
        out: &mut [u8],
        side: Side,
    ) -> bool {
        let page = &mut self.tables;
        self.taken = match side {
            Side::Library => {
                let page = &mut lend(page);
                of_library(plain::page_issue_add(buffer, replica, parent, out, page))
            }
            Side::Rust => {
                let page = page.lend();
                of_rust(careful::issue_add_page(buffer, replica, parent, out, page))
            }
        };
        self.taken.is_some()
    }

    pub fn issue_move(
        &mut self,
        buffer: &mut [u8],
        replica: u8,
        node: u16,
        parent: u16,
        out: &mut [u8],
        side: Side,
    ) -> bool {
        let page = &mut self.tables;
        self.taken = match side {
            Side::Library => {
                let page = &mut lend(page);
                let answer = plain::page_issue_move(buffer, replica, node, parent, out, page);
                of_library(answer)
            }
            Side::Rust => {
                let page = page.lend();
                let answer = careful::issue_move_page(buffer, replica, node, parent, out, page);
                of_rust(answer)
            }
        };
        self.taken.is_some()
    }
}

/// As the library takes them.
fn lend(tables: &mut Tables) -> plain::Tables<'_> {
    plain::Tables {
        order: &mut tables.order,
        parents: &mut tables.parents,
        outcomes: &mut tables.outcomes,
    }
}

fn of_library<T>(answer: Result<(T, usize), Refusal>) -> Option<usize> {
    answer.ok().map(|(_, taken)| taken)
}

fn of_rust((answer, taken): (Answer, usize)) -> Option<usize> {
    matches!(answer, Answer::Accepted(_)).then_some(taken)
}
