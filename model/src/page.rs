//! The live page: the judging order, the parents and the outcomes of a log, kept
//! beside it in lent tables.

use crate::calls::{deliver, issue_add, issue_move, issue_remove, open};
use crate::tree::{judging_order, op_slot, Tree, SLOTS};
use crate::{refusal, Answer, Log};

/// Entries of the order: one for each op that there can be.
pub const ORDER_LEN: usize = SLOTS - 1;

/// The lent tables of a page. What they have beyond the entries that count is
/// neither looked at nor changed.
pub struct Page<'a> {
    /// The slots of the held ops in judging order, and then 0.
    pub order: &'a mut [u16],
    /// As judging fills them.
    pub parents: &'a mut [u16],
    pub outcomes: &'a mut [u8],
}

/// The tables of a page, not lent.
#[derive(Clone, PartialEq, Eq, Debug, Default)]
pub struct Tables {
    pub order: Vec<u16>,
    pub parents: Vec<u16>,
    pub outcomes: Vec<u8>,
}

impl Tables {
    /// The page of a log, judged afresh.
    pub fn of(log: &Log) -> Tables {
        let slots = judging_order(log).into_iter().map(|(_, op)| op_slot(op));
        let mut order: Vec<u16> = slots.map(|slot| slot as u16).collect();
        order.resize(ORDER_LEN, 0);
        let tree = Tree::judge(log);
        Tables {
            order,
            parents: tree.parents,
            outcomes: tree.outcomes,
        }
    }

    pub fn lend(&mut self) -> Page<'_> {
        Page {
            order: &mut self.order,
            parents: &mut self.parents,
            outcomes: &mut self.outcomes,
        }
    }
}

impl<'a> Page<'a> {
    /// The entries that count; nothing if a table is too short.
    fn counted(self) -> Option<Page<'a>> {
        Some(Page {
            order: self.order.get_mut(..ORDER_LEN)?,
            parents: self.parents.get_mut(..SLOTS)?,
            outcomes: self.outcomes.get_mut(..SLOTS)?,
        })
    }

    fn equals(&self, tables: &Tables) -> bool {
        *self.order == tables.order[..]
            && *self.parents == tables.parents[..]
            && *self.outcomes == tables.outcomes[..]
    }

    fn write(&mut self, tables: &Tables) {
        self.order.copy_from_slice(&tables.order);
        self.parents.copy_from_slice(&tables.parents);
        self.outcomes.copy_from_slice(&tables.outcomes);
    }
}

/// Takes an op from another replica, with a page. Hands back the answer and how
/// many ops were taken back for it.
pub fn deliver_page(buffer: &mut [u8], op: &[u8], page: Page) -> (Answer, usize) {
    with_page(buffer, page, |buffer| deliver(buffer, op))
}

pub fn issue_add_page(
    buffer: &mut [u8],
    replica: u8,
    parent: u16,
    out: &mut [u8],
    page: Page,
) -> (Answer, usize) {
    with_page(buffer, page, |buffer| {
        issue_add(buffer, replica, parent, out)
    })
}

pub fn issue_remove_page(
    buffer: &mut [u8],
    replica: u8,
    node: u16,
    out: &mut [u8],
    page: Page,
) -> (Answer, usize) {
    with_page(buffer, page, |buffer| {
        issue_remove(buffer, replica, node, out)
    })
}

pub fn issue_move_page(
    buffer: &mut [u8],
    replica: u8,
    node: u16,
    parent: u16,
    out: &mut [u8],
    page: Page,
) -> (Answer, usize) {
    with_page(buffer, page, |buffer| {
        issue_move(buffer, replica, node, parent, out)
    })
}

/// Makes the plain call; if it accepts, the page is renewed.
fn with_page(
    buffer: &mut [u8],
    page: Page,
    call: impl FnOnce(&mut [u8]) -> Answer,
) -> (Answer, usize) {
    try_with_page(buffer, page, call).unwrap_or_else(|number| (Answer::Refused(number), 0))
}

/// Test 1, then 2 of the page. It can come before the call's own tests: of those
/// only 1 comes before 2, and whatever gives 2 first, the answer is the same.
fn try_with_page(
    buffer: &mut [u8],
    page: Page,
    call: impl FnOnce(&mut [u8]) -> Answer,
) -> Result<(Answer, usize), u8> {
    let before = open(buffer)?;
    let page = page.counted().ok_or(refusal::LENGTH)?;
    let answer = call(buffer);
    let taken = match answer {
        Answer::Accepted(_) => renew(page, &before, &open(buffer)?),
        _ => 0,
    };
    Ok((answer, taken))
}

/// Writes the page of the log with the new op. Hands back how many were taken
/// back: those that sort after the new one, or all if the page was untrue.
fn renew(mut page: Page, before: &Log, after: &Log) -> usize {
    let (old, new) = (Tables::of(before), Tables::of(after));
    let was_true = page.equals(&old);
    page.write(&new);
    let held = before.ops().count();
    let is_new = |slot: &u16| !old.order[..held].contains(slot);
    match new.order.iter().position(is_new) {
        Some(place) if was_true => held - place,
        _ => held,
    }
}
