//! What is measured: every call on logs of each shape and size.

use crate::batch::{self, Batch};
use crate::callgrind;
use crate::distance::{self, Distance};
use crate::late::Late;
use crate::meeting::{hand_over, Meeting};
use crate::page::Page;
use crate::pick::{last, names};
use outline::plain::{self, MOST_MOVES};
use outline::Refusal;
use outline_bench::careful;
use outline_model::cases::examples;
use outline_model::cases::world::{Style, World};
use outline_model::rng::Rng;
use outline_model::{Answer, Op, View, HOLDBACK_PLACES, MAX_FILE, OP_LEN, REPLICAS, SLOTS};
use std::hint::black_box;

pub const SIZES: [usize; 4] = [0, 100, 1000, 2040];

#[derive(Clone, Copy, PartialEq, Eq)]
pub enum Shape {
    /// Adds under the root, of all eight replicas, each by itself.
    Flat,
    /// Each add under the one before, which it counts: one chain.
    Deep,
    /// Replicas that add, remove and move, and hear of each other now and then.
    Random,
    /// One chain in which the replicas take turns, the highest first.
    Interleaved,
}

pub const SHAPES: [Shape; 4] = [Shape::Flat, Shape::Deep, Shape::Random, Shape::Interleaved];

impl Shape {
    pub fn name(self) -> &'static str {
        match self {
            Shape::Flat => "flat",
            Shape::Deep => "deep",
            Shape::Random => "random",
            Shape::Interleaved => "interleaved",
        }
    }

    /// Ops in an order in which each comes after all it counts.
    pub fn ops(self, size: usize) -> Vec<Op> {
        match self {
            Shape::Flat => {
                let each = |replica: usize| (size + 8 - replica) / 8;
                (1..=8)
                    .flat_map(|replica| examples::adds(replica as u8, each(replica)))
                    .collect()
            }
            Shape::Deep => examples::longest_chain()[..size].to_vec(),
            Shape::Random => World::random(&mut Rng::new(7), Style::mixed(8, size)).ops,
            Shape::Interleaved => examples::turns(size),
        }
    }
}

#[derive(Clone, Copy, PartialEq, Eq)]
pub enum Call {
    Make,
    Deliver,
    Add,
    Remove,
    Move,
    /// A move under the deepest node of a chain.
    MoveOver(Distance),
    /// A batch of as many moves as there can be.
    Moves,
    /// The same moves one by one.
    MovesInTurn,
    Judge,
    /// A log of which half are such moves.
    JudgeOver(Distance),
    Path,
    Keeping,
    Skipping,
    /// A bundle of all ops of a log.
    BundleMake,
    /// The same opened at an empty log.
    BundleOpen,
    /// All ops of a log delivered to an empty one, in causal order.
    Exchange,
    /// Two logs that meet by one bundle each way.
    Bundles,
    /// The same two op by op, in causal order.
    OpByOp,
    /// A delivery with an empty holdback.
    Holdback,
    /// One of an early op, where 31 others of a chain wait.
    Waits,
    /// The same op by a plain delivery, which refuses it.
    Early,
    /// One of the first op of a chain, where the 32 others wait, the last first.
    Frees,
    /// The same 33 ops by plain deliveries, in causal order.
    InTurn,
    /// A delivery with a true page.
    Page(Late),
    /// One with an untrue page, of the op that sorts last.
    PageUntrue,
    /// The same op by a plain delivery, to which it is all one how late it comes.
    Pageless,
    /// The same by a plain delivery, and then a judgement.
    Afresh(Late),
    PageAdd,
    PageMove,
}

pub const CALLS: [Call; 37] = [
    Call::Make,
    Call::Deliver,
    Call::Add,
    Call::Remove,
    Call::Move,
    Call::MoveOver(Distance::Near),
    Call::MoveOver(Distance::Far),
    Call::MoveOver(Distance::Beside),
    Call::Moves,
    Call::MovesInTurn,
    Call::Judge,
    Call::JudgeOver(Distance::Near),
    Call::JudgeOver(Distance::Far),
    Call::JudgeOver(Distance::Beside),
    Call::Path,
    Call::Keeping,
    Call::Skipping,
    Call::BundleMake,
    Call::BundleOpen,
    Call::Exchange,
    Call::Bundles,
    Call::OpByOp,
    Call::Holdback,
    Call::Waits,
    Call::Early,
    Call::Frees,
    Call::InTurn,
    Call::Page(Late::Last),
    Call::PageUntrue,
    Call::Pageless,
    Call::Afresh(Late::Last),
    Call::Page(Late::Ten),
    Call::Afresh(Late::Ten),
    Call::Page(Late::Hundred),
    Call::Afresh(Late::Hundred),
    Call::PageAdd,
    Call::PageMove,
];

impl Call {
    pub fn name(self) -> &'static str {
        match self {
            Call::Make => "make",
            Call::Deliver => "deliver",
            Call::Add => "issue_add",
            Call::Remove => "issue_remove",
            Call::Move => "issue_move",
            Call::MoveOver(Distance::Near) => "issue_move, near",
            Call::MoveOver(Distance::Far) => "issue_move, far",
            Call::MoveOver(Distance::Beside) => "issue_move, beside",
            Call::Moves => "issue_moves, 16",
            Call::MovesInTurn => "the same 16 by issue_move",
            Call::Judge => "judge",
            Call::JudgeOver(Distance::Near) => "judge, near",
            Call::JudgeOver(Distance::Far) => "judge, far",
            Call::JudgeOver(Distance::Beside) => "judge, beside",
            Call::Path => "path",
            Call::Keeping => "listing, keeping",
            Call::Skipping => "listing, skipping",
            Call::BundleMake => "bundle_make",
            Call::BundleOpen => "bundle_open",
            Call::Exchange => "a whole exchange",
            Call::Bundles => "two logs meet, by bundles",
            Call::OpByOp => "two logs meet, op by op",
            Call::Holdback => "holdback_deliver, empty",
            Call::Waits => "holdback_deliver, waits",
            Call::Early => "the same by deliver, early",
            Call::Frees => "holdback_deliver, frees 32",
            Call::InTurn => "the same 33 by deliver",
            Call::Page(Late::Last) => "page_deliver, last",
            Call::Page(Late::Ten) => "page_deliver, 10 back",
            Call::Page(Late::Hundred) => "page_deliver, 100 back",
            Call::PageUntrue => "page_deliver, untrue",
            Call::Pageless => "the same by deliver",
            Call::Afresh(_) => "the same by deliver and judge",
            Call::PageAdd => "page_issue_add",
            Call::PageMove => "page_issue_move",
        }
    }

    /// Whether the call adds an op, so that a full log can take none.
    fn adds(self) -> bool {
        let issues = matches!(
            self,
            Call::Add
                | Call::Remove
                | Call::Move
                | Call::MoveOver(_)
                | Call::PageAdd
                | Call::PageMove
        );
        self.brings_last() || issues
    }

    /// Whether the call moves many nodes.
    fn has_batch(self) -> bool {
        matches!(self, Call::Moves | Call::MovesInTurn)
    }

    /// Whether the call delivers the last op of the log.
    fn brings_last(self) -> bool {
        matches!(self, Call::Deliver | Call::Holdback) || self.late().is_some()
    }

    /// Whether the log lacks a chain.
    fn has_chain(self) -> bool {
        matches!(self, Call::Waits | Call::Early | Call::Frees | Call::InTurn)
    }

    /// Whether the call fills an empty log.
    fn fills(self) -> bool {
        matches!(self, Call::BundleOpen | Call::Exchange)
    }

    /// Whether the call changes its buffer.
    fn changes(self) -> bool {
        let adds_many = matches!(self, Call::Frees | Call::InTurn) || self.has_batch();
        self.adds() || self.fills() || adds_many
    }

    /// Whether the call is lent a holdback.
    fn has_holdback(self) -> bool {
        matches!(self, Call::Holdback | Call::Waits | Call::Frees)
    }

    /// Whether the call is lent a page.
    fn has_page(self) -> bool {
        matches!(
            self,
            Call::Page(_) | Call::PageUntrue | Call::PageAdd | Call::PageMove
        )
    }

    /// How late the op comes that the rows of pages deliver.
    fn late(self) -> Option<Late> {
        match self {
            Call::Page(late) | Call::Afresh(late) => Some(late),
            Call::PageUntrue | Call::Pageless => Some(Late::Last),
            _ => None,
        }
    }

    /// Whether two logs meet.
    fn meets(self) -> bool {
        matches!(self, Call::Bundles | Call::OpByOp)
    }
}

#[derive(Clone, Copy, PartialEq, Eq)]
pub enum Side {
    Library,
    Rust,
}

/// One call with its arguments and the memory that it is lent.
pub struct Work {
    call: Call,
    file: Vec<u8>,
    buffer: Vec<u8>,
    /// What an exchange, a bundle or a chain hands over.
    offered: Vec<u8>,
    /// What a delivery is lent as its holdback, and what it makes of it.
    waiting: Vec<u8>,
    holdback: Vec<u8>,
    meeting: Meeting,
    page: Page,
    op: Vec<u8>,
    replica: u8,
    node: u16,
    parent: u16,
    batch: Batch,
    out: Vec<u8>,
    words: Vec<u16>,
    bytes: Vec<u8>,
}

impl Work {
    pub fn new(call: Call, shape: Shape, size: usize) -> Work {
        let mut ops = match (call, call.late()) {
            (Call::MoveOver(_), _) => distance::chain(size),
            (Call::JudgeOver(distance), _) => distance.moves(size),
            (_, Some(late)) => late.ops(shape, size),
            _ if call.has_batch() => batch::ops(shape, size),
            _ => shape.ops(size.max(1)),
        };
        let chain = if call.has_chain() {
            ops.split_off(ops.len() - CHAIN)
        } else {
            vec![]
        };
        let last = last(&ops);
        // What a delivery brings: an op that no other counts, or one of the chain.
        let op = match call {
            Call::Frees => chain[0],
            Call::Waits | Call::Early => chain[CHAIN - 1],
            _ => ops[last],
        };
        // A call that adds fills a log of the greatest size.
        if size == 0 || call.brings_last() || (call.adds() && ops.len() == MAX_OPS) {
            ops.remove(last);
        }
        let log = examples::log_of(&ops);
        let mut file = log.bytes();
        let offered = match call {
            Call::BundleOpen => examples::bundle_for(&file, [0; REPLICAS]),
            Call::InTurn => chain.iter().flat_map(Op::bytes).collect(),
            _ => file.clone(),
        };
        let others = chain.iter().skip(1).rev().filter(|&other| *other != op);
        let waiting = examples::holdback_of(&others.copied().collect::<Vec<_>>());
        if call.fills() {
            let length = file.len();
            file = examples::file_of(&[]);
            file.resize(length, 0);
        }
        let many = if call.has_batch() { MOST_MOVES } else { 1 };
        let room = OP_LEN * chain.len().max(many);
        file.resize((file.len() + room).min(MAX_FILE), 0);
        let counts = log.held();
        let replica = counts.iter().position(|&count| count < 255).unwrap_or(0);
        let replica = replica as u8 + 1;
        let (node, parent) = match call {
            Call::MoveOver(distance) => distance.names(&ops),
            _ => names(&log),
        };
        Work {
            call,
            buffer: file.clone(),
            file,
            offered,
            holdback: waiting.clone(),
            waiting,
            meeting: if call.meets() {
                Meeting::new(size)
            } else {
                Meeting::default()
            },
            page: match call {
                Call::PageUntrue => Page::untrue(&log),
                _ if call.has_page() => Page::of(&log, call.late().map_or(0, Late::by)),
                _ => Page::default(),
            },
            op: op.bytes().to_vec(),
            replica,
            node,
            parent,
            batch: if call.has_batch() {
                Batch::new(&log, replica, parent)
            } else {
                Batch::default()
            },
            out: vec![0; OP_LEN * many],
            words: vec![0; SLOTS],
            bytes: vec![0; plain::LARGEST_BUNDLE],
        }
    }

    /// Makes the call once, on the buffer as it was, and says whether it was
    /// accepted.
    #[inline]
    pub fn once(&mut self, side: Side) -> bool {
        if self.call.changes() {
            self.buffer.copy_from_slice(&self.file);
        }
        if self.call.has_holdback() {
            self.holdback.copy_from_slice(&self.waiting);
        }
        if self.call.meets() {
            self.meeting.part();
        }
        if self.call.has_page() {
            self.page.turn_back();
        }
        let buffer = black_box(&mut self.buffer[..]);
        match (self.call, side) {
            (Call::Make, Side::Library) => callgrind::count(|| plain::make(buffer).is_ok()),
            (Call::Make, Side::Rust) => accepted(|| careful::make(buffer)),
            (Call::Deliver | Call::Early | Call::Pageless, Side::Library) => {
                callgrind::count(|| plain::deliver(buffer, &self.op).is_ok())
            }
            (Call::Deliver | Call::Early | Call::Pageless, Side::Rust) => {
                accepted(|| careful::deliver(buffer, &self.op))
            }
            (Call::Add, Side::Library) => callgrind::count(|| {
                plain::issue_add(buffer, self.replica, self.parent, &mut self.out).is_ok()
            }),
            (Call::Add, Side::Rust) => {
                accepted(|| careful::issue_add(buffer, self.replica, self.parent, &mut self.out))
            }
            (Call::Remove, Side::Library) => callgrind::count(|| {
                plain::issue_remove(buffer, self.replica, self.node, &mut self.out).is_ok()
            }),
            (Call::Remove, Side::Rust) => {
                accepted(|| careful::issue_remove(buffer, self.replica, self.node, &mut self.out))
            }
            (Call::Move | Call::MoveOver(_), Side::Library) => callgrind::count(|| {
                let (replica, node, parent) = (self.replica, self.node, self.parent);
                plain::issue_move(buffer, replica, node, parent, &mut self.out).is_ok()
            }),
            (Call::Move | Call::MoveOver(_), Side::Rust) => accepted(|| {
                let (replica, node, parent) = (self.replica, self.node, self.parent);
                careful::issue_move(buffer, replica, node, parent, &mut self.out)
            }),
            (Call::Moves, _) => {
                callgrind::count(|| self.batch.at_once(buffer, &mut self.out, side))
            }
            (Call::MovesInTurn, _) => {
                callgrind::count(|| self.batch.one_by_one(buffer, &mut self.out, side))
            }
            (Call::Judge | Call::JudgeOver(_), _) => {
                callgrind::count(|| judge(buffer, &mut self.words, &mut self.bytes, side))
            }
            (Call::Path, Side::Library) => {
                callgrind::count(|| plain::path(buffer, self.node, &mut self.words).is_ok())
            }
            (Call::Path, Side::Rust) => {
                accepted(|| careful::path(buffer, self.node, &mut self.words))
            }
            (Call::Keeping, Side::Library) => callgrind::count(|| {
                plain::listing(buffer, outline::View::Keeping, &mut self.bytes).is_ok()
            }),
            (Call::Keeping, Side::Rust) => {
                accepted(|| careful::listing(buffer, View::Keeping, &mut self.bytes))
            }
            (Call::Skipping, Side::Library) => callgrind::count(|| {
                plain::listing(buffer, outline::View::Skipping, &mut self.bytes).is_ok()
            }),
            (Call::Skipping, Side::Rust) => {
                accepted(|| careful::listing(buffer, View::Skipping, &mut self.bytes))
            }
            (Call::BundleMake, Side::Library) => callgrind::count(|| {
                plain::bundle_make(buffer, &[0; REPLICAS], &mut self.bytes).is_ok()
            }),
            (Call::BundleMake, Side::Rust) => {
                accepted(|| careful::make_bundle(buffer, [0; REPLICAS], &mut self.bytes))
            }
            (Call::BundleOpen, Side::Library) => {
                callgrind::count(|| plain::bundle_open(buffer, &self.offered).is_ok())
            }
            (Call::BundleOpen, Side::Rust) => {
                accepted(|| careful::open_bundle(buffer, &self.offered))
            }
            (Call::Exchange, _) => callgrind::count(|| hand_over(&self.offered, buffer, side)),
            (Call::Bundles, _) => callgrind::count(|| self.meeting.by_bundles(side)),
            (Call::OpByOp, _) => callgrind::count(|| self.meeting.op_by_op(side)),
            (Call::Holdback | Call::Waits | Call::Frees, Side::Library) => callgrind::count(|| {
                plain::holdback_deliver(buffer, &self.op, &mut self.holdback).is_ok()
            }),
            (Call::Holdback | Call::Waits | Call::Frees, Side::Rust) => {
                accepted(|| careful::deliver_holdback(buffer, &self.op, &mut self.holdback))
            }
            (Call::InTurn, _) => callgrind::count(|| in_turn(&self.offered, buffer, side)),
            (Call::Page(_) | Call::PageUntrue, _) => {
                callgrind::count(|| self.page.deliver(buffer, &self.op, side))
            }
            (Call::Afresh(_), _) => callgrind::count(|| {
                in_turn(&self.op, buffer, side)
                    && judge(buffer, &mut self.words, &mut self.bytes, side)
            }),
            (Call::PageAdd, _) => callgrind::count(|| {
                let (replica, parent, out) = (self.replica, self.parent, &mut self.out);
                self.page.issue_add(buffer, replica, parent, out, side)
            }),
            (Call::PageMove, _) => callgrind::count(|| {
                let (replica, node, parent) = (self.replica, self.node, self.parent);
                let out = &mut self.out;
                self.page
                    .issue_move(buffer, replica, node, parent, out, side)
            }),
        }
    }

    /// Both sides leave the same behind, and take back as many ops as are meant.
    pub fn check(&mut self) {
        let name = self.call.name();
        let mut left = vec![];
        for side in [Side::Library, Side::Rust] {
            self.out.fill(1);
            self.words.fill(1);
            self.bytes.fill(1);
            let accepted = self.once(side);
            assert_eq!(self.page.taken, self.page.meant, "{name}");
            left.push((
                accepted,
                self.buffer.clone(),
                self.holdback.clone(),
                self.meeting.buffers.clone(),
                self.page.tables.clone(),
                self.out.clone(),
                self.words.clone(),
                self.bytes.clone(),
            ));
        }
        assert!(left[0] == left[1], "{name}: the sides differ");
        assert!(left[0].0 || !self.call.has_batch(), "{name}: refused");
        // No other refusal than the one that is meant.
        if let Call::MoveOver(distance) = self.call {
            let (replica, node, parent) = (self.replica, self.node, self.parent);
            let mut buffer = self.file.clone();
            let answer = plain::issue_move(&mut buffer, replica, node, parent, &mut self.out);
            let meant = distance.is_met().then_some(Refusal::Cycle);
            assert_eq!(answer.err(), meant, "{name}");
        }
    }
}

const MAX_OPS: usize = SLOTS - 1;
/// One op, and those that can wait for it.
const CHAIN: usize = 1 + HOLDBACK_PLACES;

/// Delivers these ops one by one.
fn in_turn(ops: &[u8], buffer: &mut [u8], side: Side) -> bool {
    ops.chunks_exact(OP_LEN).all(|op| match side {
        Side::Library => plain::deliver(buffer, op).is_ok(),
        Side::Rust => matches!(careful::deliver(buffer, op), Answer::Accepted(_)),
    })
}

#[inline]
fn judge(file: &[u8], parents: &mut [u16], outcomes: &mut [u8], side: Side) -> bool {
    let outcomes = &mut outcomes[..SLOTS];
    match side {
        Side::Library => plain::judge(file, parents, outcomes).is_ok(),
        Side::Rust => careful::judge(file, parents, outcomes) == Answer::Done,
    }
}

#[inline]
fn accepted(call: impl FnOnce() -> Answer) -> bool {
    callgrind::count(|| !matches!(call(), Answer::Refused(_)))
}

/// All that is measured. At size 0 the shapes are one.
pub fn all() -> impl Iterator<Item = (Call, Shape, usize)> {
    CALLS.into_iter().flat_map(|call| {
        SHAPES.into_iter().flat_map(move |shape| {
            let some = move |&size: &usize| match (call, shape) {
                (Call::Make, _) => shape == Shape::Flat && size == 0,
                (Call::Exchange, _) => shape == Shape::Interleaved && size > 0,
                (Call::Bundles | Call::OpByOp, _) => shape == Shape::Random && size == 1000,
                (Call::MoveOver(_) | Call::JudgeOver(_), _) => shape == Shape::Deep && size > 0,
                _ if call.has_chain() => shape == Shape::Interleaved && size > CHAIN,
                _ if call.late().is_some_and(|late| size <= late.by()) => false,
                _ if call.late().is_some() || call.has_page() || call.has_batch() => {
                    matches!(shape, Shape::Deep | Shape::Random) && size > 0
                }
                (_, Shape::Interleaved) => false,
                _ => size > 0 || shape == Shape::Flat,
            };
            SIZES
                .into_iter()
                .filter(some)
                .map(move |size| (call, shape, size))
        })
    })
}
