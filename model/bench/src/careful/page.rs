//! Delivering and issuing with a page. A lent page may have any content, so the
//! log is replayed beside it; the replay keeps what each op overwrote, and from
//! there the ops behind a new one are taken back.

use super::calls::{
    draft_add, draft_move, draft_remove, names_for_move, new_op, next_of, record_space, write_op,
    Draft,
};
use super::log::{Layout, Log, Op, MOST, OP, REPLICAS};
use super::replay::{in_judging_order, judge_op, slot_of, NO_PARENT, SLOTS};
use outline_model::{refusal, Answer, Page};

const ORDER: usize = SLOTS - 1;

#[inline(never)]
pub fn deliver_page(buffer: &mut [u8], op: &[u8], page: Page) -> (Answer, usize) {
    both(try_deliver(buffer, op, page))
}

fn try_deliver(buffer: &mut [u8], bytes: &[u8], page: Page) -> Result<(Answer, usize), u8> {
    let log = Log::open(buffer).ok_or(refusal::UNSOUND)?;
    let page = Lent::read(page)?;
    let Some(op) = new_op(&log, bytes)? else {
        return Ok((Answer::HadIt, 0));
    };
    let layout = log.layout;
    has_room(buffer, &layout)?;
    let board = Board::of(&log);
    Ok(put(buffer, layout, op, page, board))
}

#[inline(never)]
pub fn issue_add_page(
    buffer: &mut [u8],
    replica: u8,
    parent: u16,
    out: &mut [u8],
    page: Page,
) -> (Answer, usize) {
    both(issue(buffer, replica, out, page, |log, sequence, _| {
        draft_add(log, replica, sequence, parent)
    }))
}

#[inline(never)]
pub fn issue_remove_page(
    buffer: &mut [u8],
    replica: u8,
    node: u16,
    out: &mut [u8],
    page: Page,
) -> (Answer, usize) {
    both(issue(buffer, replica, out, page, |log, _, _| {
        draft_remove(log, node)
    }))
}

#[inline(never)]
pub fn issue_move_page(
    buffer: &mut [u8],
    replica: u8,
    node: u16,
    parent: u16,
    out: &mut [u8],
    page: Page,
) -> (Answer, usize) {
    both(issue(buffer, replica, out, page, |log, _, board| {
        names_for_move(log, node, parent)?;
        draft_move(&board.parents, node, parent)
    }))
}

/// Tests 1, 2, 3 and 9; `draft` makes 7, 11 and 10. The replay comes before these,
/// since a move needs its tree.
fn issue(
    buffer: &mut [u8],
    replica: u8,
    out: &mut [u8],
    page: Page,
    draft: impl FnOnce(&Log, u8, &Board) -> Result<Draft, u8>,
) -> Result<(Answer, usize), u8> {
    let log = Log::open(buffer).ok_or(refusal::UNSOUND)?;
    let out = record_space(out)?;
    let page = Lent::read(page)?;
    let (_, sequence) = next_of(&log, replica)?;
    let board = Board::of(&log);
    let layout = log.layout;
    let op = write_op(replica, draft(&log, sequence, &board)?, layout.counts);
    has_room(buffer, &layout)?;
    let accepted = put(buffer, layout, Op(&op), page, board);
    *out = op;
    Ok(accepted)
}

fn both(result: Result<(Answer, usize), u8>) -> (Answer, usize) {
    result.unwrap_or_else(|number| (Answer::Refused(number), 0))
}

/// Test 8.
fn has_room(buffer: &[u8], layout: &Layout) -> Result<(), u8> {
    if buffer.len() < layout.end + OP {
        return Err(refusal::ROOM);
    }
    Ok(())
}

/// Puts the op, for which there is room, in its place in the log and on the page.
fn put(
    buffer: &mut [u8],
    layout: Layout,
    op: Op,
    mut page: Lent,
    mut board: Board,
) -> (Answer, usize) {
    let end = layout.insert(buffer, op.index(), op.0);
    let log = Log::known(buffer, layout.with_one_more(op.index()));
    let held = board.held;
    let is_true = page.equals(&board);
    let behind = board.insert(&log, op);
    page.write(&board);
    (Answer::Accepted(end), if is_true { behind } else { held })
}

/// The entries of a lent page that count.
struct Lent<'a> {
    order: &'a mut [u16; ORDER],
    parents: &'a mut [u16; SLOTS],
    outcomes: &'a mut [u8; SLOTS],
}

impl<'a> Lent<'a> {
    /// Test 2 of the page.
    fn read(page: Page<'a>) -> Result<Lent<'a>, u8> {
        let order = page.order.first_chunk_mut();
        let parents = page.parents.first_chunk_mut();
        let outcomes = page.outcomes.first_chunk_mut();
        Ok(Lent {
            order: order.ok_or(refusal::LENGTH)?,
            parents: parents.ok_or(refusal::LENGTH)?,
            outcomes: outcomes.ok_or(refusal::LENGTH)?,
        })
    }

    fn equals(&self, board: &Board) -> bool {
        *self.order == board.order
            && *self.parents == board.parents
            && *self.outcomes == board.outcomes
    }

    fn write(&mut self, board: &Board) {
        *self.order = board.order;
        *self.parents = board.parents;
        *self.outcomes = board.outcomes;
    }
}

/// What an op found where its node hangs.
#[derive(Clone, Copy, Default)]
struct Before {
    /// The node's slot.
    node: u16,
    parent: u16,
    placed: u16,
}

/// The page of a log, and what is needed to take back ops from it.
struct Board {
    order: [u16; ORDER],
    parents: [u16; SLOTS],
    outcomes: [u8; SLOTS],
    /// The timestamp of the last applied move of a node.
    placed: [u16; SLOTS],
    /// The timestamp of each op, by slot.
    times: [u16; SLOTS],
    /// By place in the order.
    before: [Before; ORDER],
    held: usize,
}

impl Board {
    /// Replays the log.
    fn of(log: &Log) -> Board {
        let mut board = Board {
            order: [0; ORDER],
            parents: [NO_PARENT; SLOTS],
            outcomes: [0; SLOTS],
            placed: [0; SLOTS],
            times: [0; SLOTS],
            before: [Before::default(); ORDER],
            held: 0,
        };
        board.parents[0] = 0;
        in_judging_order(log, |time, slot, op| {
            board.order[board.held] = slot as u16;
            board.times[slot] = time;
            board.judge(board.held, op);
            board.held += 1;
        });
        board
    }

    /// Puts the op, which the log has already, where it sorts. Hands back how many
    /// are behind it: these are taken back and judged again.
    fn insert(&mut self, log: &Log, op: Op) -> usize {
        let slot = MOST * op.index() + op.sequence();
        self.times[slot] = 1 + self.greatest_within(op);
        let place = self.place_of(log, op, slot);
        for before in self.before[place..self.held].iter().rev() {
            let node = usize::from(before.node);
            self.parents[node] = before.parent;
            self.placed[node] = before.placed;
        }
        self.order.copy_within(place..self.held, place + 1);
        self.order[place] = slot as u16;
        self.held += 1;
        for at in place..self.held {
            self.judge(at, op_at(log, self.order[at]));
        }
        self.held - 1 - place
    }

    /// The last op counted of each replica has that replica's greatest timestamp.
    fn greatest_within(&self, op: Op) -> u16 {
        let counts = op.vector().iter().enumerate();
        counts
            .filter(|&(_, &count)| count > 0)
            .map(|(index, &count)| self.times[MOST * index + usize::from(count)])
            .max()
            .unwrap_or(0)
    }

    /// From the end: most ops come late by few.
    fn place_of(&self, log: &Log, op: Op, slot: usize) -> usize {
        let key = |op: Op, slot: usize| (self.times[slot], op.kind(), REPLICAS - op.index());
        let new = key(op, slot);
        let mut place = self.held;
        while place > 0 {
            let other = self.order[place - 1];
            if key(op_at(log, other), usize::from(other)) < new {
                break;
            }
            place -= 1;
        }
        place
    }

    /// Judges the op at this place of the order.
    #[inline(always)]
    fn judge(&mut self, at: usize, op: Op) {
        let slot = usize::from(self.order[at]);
        let node = slot_of(op.node());
        self.before[at] = Before {
            node: node as u16,
            parent: self.parents[node],
            placed: self.placed[node],
        };
        let time = self.times[slot];
        self.outcomes[slot] = judge_op(op, time, &mut self.parents, &mut self.placed);
    }
}

/// The op of a slot that is not the root's.
fn op_at<'a>(log: &Log<'a>, slot: u16) -> Op<'a> {
    let before = usize::from(slot) - 1;
    log.op(before / MOST, before % MOST + 1)
}
