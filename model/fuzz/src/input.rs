//! What is called: files, sound and damaged, short and full, and calls on them.

use crate::call::Call;
use crate::page::Page;
use outline::plain::{HOLDBACK, LARGEST_BUNDLE, MOST_MOVES};
use outline_model::cases::world::{full, holdback, part, Deep, Style, World};
use outline_model::cases::{damage, examples};
use outline_model::op::join;
use outline_model::rng::Rng;
use outline_model::{Kind, Knowledge, Log, Op, Tree, Vector, View};
use outline_model::{HOLDBACK_PLACES, MAX_FILE, MAX_SEQUENCE, OP_LEN, SLOTS};

/// A buffer with a log at its front, and ops to call it with.
pub struct Input {
    pub buffer: Vec<u8>,
    /// Ops of the same world: held ones, and ones that are not held yet.
    ops: Vec<Op>,
    /// How many of them the log starts with.
    pub held: usize,
    /// The chains that the ops start with, if the log is deep.
    deep: Option<Deep>,
}

/// Logs that take long to make, made once.
pub struct Stock {
    full: Vec<Vec<Op>>,
}

impl Stock {
    pub fn new(rng: &mut Rng) -> Stock {
        let mut logs = vec![examples::longest_chain(), flat()];
        for _ in 0..4 {
            logs.push(full(rng, Style::moves));
            logs.push(full(rng, Style::mixed));
        }
        Stock { full: logs }
    }

    /// The file of a log that takes no more ops.
    pub fn largest(&self, rng: &mut Rng) -> Vec<u8> {
        examples::file_of(&self.full[rng.below(self.full.len())])
    }
}

/// Every node there can be, under the root.
fn flat() -> Vec<Op> {
    (1..=8)
        .flat_map(|replica| examples::adds(replica, 255))
        .collect()
}

fn style(rng: &mut Rng, ops: usize) -> Style {
    let replicas = 1 + rng.below(8);
    let make = rng.pick(&[Style::moves as fn(usize, usize) -> Style, Style::mixed]);
    make(replicas, ops)
}

/// Ops, of which the first `held` are in the log.
fn ops(rng: &mut Rng, stock: &Stock) -> (Vec<Op>, usize) {
    match rng.below(100) {
        // Full size: 2,040 ops, or a few less.
        0..=2 => {
            let ops = stock.full[rng.below(stock.full.len())].clone();
            let fewer = [0, 0, 1, 5, 40][rng.below(5)];
            let held = ops.len() - fewer;
            (ops, held)
        }
        3..=8 => {
            let count = 100 + rng.below(700);
            let style = style(rng, count);
            let world = World::random(rng, style);
            split(rng, world.ops)
        }
        9..=24 => {
            let logs = examples::small_logs();
            let ops = logs[rng.below(logs.len())].clone();
            split(rng, ops)
        }
        25 => (examples::mutual(), 2),
        _ => {
            let count = rng.below(40);
            let style = style(rng, count);
            let world = World::random(rng, style);
            split(rng, world.ops)
        }
    }
}

/// Chains of a hundred nodes and more, and moves along and across them. The trees
/// of the other worlds are shallow.
fn deep(rng: &mut Rng) -> Deep {
    let longest = if rng.one_in(20) { 600 } else { 200 };
    Deep {
        chains: 1 + rng.below(3),
        length: 100 + rng.below(longest - 100),
        moves: 5 + rng.below(40),
    }
}

/// The ops of a deep world; mostly all nodes and some of the moves are held.
fn deep_ops(rng: &mut Rng, deep: Deep) -> (Vec<Op>, usize) {
    let ops = World::deep(rng, deep).ops;
    if rng.one_in(8) {
        return split(rng, ops);
    }
    let held = ops.len() - rng.below(deep.moves + 1);
    (ops, held)
}

fn split(rng: &mut Rng, ops: Vec<Op>) -> (Vec<Op>, usize) {
    let held = if rng.one_in(3) {
        ops.len()
    } else {
        rng.below(ops.len() + 1)
    };
    (ops, held)
}

/// The length of the buffer for a file of this length.
fn room(rng: &mut Rng, end: usize) -> usize {
    match rng.below(8) {
        0 => end,
        1 => end + 13,
        2 => end + 14,
        3 => end + rng.below(60),
        4 => end.saturating_sub(1 + rng.below(20)),
        5 => MAX_FILE,
        6 => MAX_FILE + rng.below(11_000),
        _ => end + 300,
    }
}

impl Input {
    pub fn random(rng: &mut Rng, stock: &Stock) -> Input {
        if rng.one_in(20) {
            return Input::noise(rng);
        }
        let deep = rng.one_in(7).then(|| deep(rng));
        let (ops, held) = match deep {
            Some(deep) => deep_ops(rng, deep),
            None => ops(rng, stock),
        };
        let mut file = examples::file_of(&ops[..held]);
        // A damaged log has no tree most of the time, whether deep or not.
        if rng.one_in(if deep.is_some() { 20 } else { 4 }) {
            for _ in 0..1 + rng.below(3) {
                file = damage::random(rng, &file);
            }
        }
        let length = room(rng, file.len());
        let mut buffer = file;
        while buffer.len() < length {
            buffer.push(rng.byte());
        }
        buffer.truncate(length);
        Input {
            buffer,
            ops,
            held,
            deep,
        }
    }

    /// Bytes that are no file, or an empty file with a damaged header.
    fn noise(rng: &mut Rng) -> Input {
        let mut buffer: Vec<u8> = if rng.one_in(2) {
            let length = rng.below(200);
            (0..length).map(|_| rng.byte()).collect()
        } else {
            damage::random(rng, &examples::file_of(&[]))
        };
        if rng.one_in(2) {
            buffer.resize(rng.below(120), 0);
        }
        Input {
            buffer,
            ops: examples::p1(),
            held: 0,
            deep: None,
        }
    }

    /// The file of the ops that the log starts with, neither damaged nor cut.
    pub fn file(&self) -> Vec<u8> {
        examples::file_of(&self.ops[..self.held])
    }

    fn is_large(&self) -> bool {
        self.held > 60
    }

    pub fn is_deep(&self) -> bool {
        self.deep.is_some()
    }

    /// How many calls are made on it.
    pub fn calls(&self, rng: &mut Rng) -> usize {
        20 + rng.below(60)
    }

    /// A call on buffer, holdback and page as the calls before have left them.
    pub fn call(&self, rng: &mut Rng, buffer: &[u8], holdback: &[u8], page: &Page) -> Call {
        if rng.one_in(15) {
            return self.batch(rng, buffer);
        }
        if rng.one_in(10) {
            let page = self.page(rng, buffer, page);
            return self.page_call(rng, buffer, page);
        }
        match self.deep {
            Some(deep) if rng.one_in(2) => self.deep_call(rng, deep, buffer),
            _ => self.any_call(rng, buffer, holdback),
        }
    }

    /// Moves to one parent. Mostly all of them can be made, or all but one. The model
    /// takes as long for each as for an issue, so few are many at a large log.
    fn batch(&self, rng: &mut Rng, buffer: &[u8]) -> Call {
        let most = if self.is_large() && !rng.one_in(8) {
            3
        } else {
            MOST_MOVES + 2
        };
        let count = rng.below(most + 1);
        let log = Log::open(buffer);
        let column = log.as_ref().and_then(|log| column(rng, log, count));
        let (mut nodes, parent) = column.unwrap_or_else(|| {
            let nodes = (0..count).map(|_| self.node(rng)).collect();
            (nodes, self.node(rng))
        });
        if count > 0 && rng.one_in(3) {
            let any = self.node(rng);
            nodes[rng.below(count)] = log.map_or(any, |log| worse(rng, &log, parent, any));
        }
        Call::Moves {
            replica: replica_for(rng, &held(buffer)),
            nodes,
            parent,
            room: records_room(rng, count),
        }
    }

    /// An op that is delivered with a page, often a late one, or issued.
    fn page_call(&self, rng: &mut Rng, buffer: &[u8], page: Page) -> Call {
        let (node, parent) = match self.deep {
            Some(deep) => {
                let (node, parent) = deep.places(rng);
                let parent = parent.map_or(0, |place| self.ops[place].node);
                (self.ops[node].node, parent)
            }
            None => (self.node(rng), self.node(rng)),
        };
        let (replica, room) = (replica(rng), record_room(rng));
        match rng.below(18) {
            0..=6 => Call::PageDeliver {
                op: late(rng, buffer, node, parent).unwrap_or_else(|| self.record(rng)),
                page,
            },
            7..=9 => Call::PageDeliver {
                op: self.next(rng, buffer, &[]),
                page,
            },
            10 | 11 => Call::PageDeliver {
                op: self.record(rng),
                page,
            },
            12 | 13 => Call::PageAdd {
                replica,
                parent,
                room,
                page,
            },
            14 | 15 => Call::PageRemove {
                replica,
                node,
                room,
                page,
            },
            _ => Call::PageMove {
                replica,
                node,
                parent,
                room,
                page,
            },
        }
    }

    /// A page: as it was left, which other calls may have made old, or the true
    /// one, or one of fewer ops, or of any entries; some with a wrong entry, and
    /// some too short or longer than need be.
    fn page(&self, rng: &mut Rng, buffer: &[u8], left: &Page) -> Page {
        let left = left.clone().whole();
        let fresh = |buffer: &[u8]| Page::fresh(buffer).unwrap_or_else(Page::zeros);
        let mut page = match rng.below(16) {
            0 => Page::noise(rng),
            1 => Page::zeros(),
            2 => {
                let fewer = self.held.saturating_sub(1 + rng.below(4));
                fresh(&examples::file_of(&self.ops[..fewer]))
            }
            3 => fresh(buffer).mixed(rng, left),
            4..=6 => fresh(buffer).stained(rng),
            7..=11 => fresh(buffer),
            _ => left,
        };
        if rng.one_in(6) {
            page = page.long(rng);
        }
        if rng.one_in(12) {
            page = page.whole().short(rng);
        }
        page
    }

    /// A move near or far in the chains, issued or delivered, or judging.
    fn deep_call(&self, rng: &mut Rng, deep: Deep, buffer: &[u8]) -> Call {
        let (node, parent) = deep.places(rng);
        let node = self.ops[node].node;
        let parent = parent.map_or(0, |place| self.ops[place].node);
        match rng.below(10) {
            0..=4 => Call::Move {
                replica: replica(rng),
                node,
                parent,
                room: record_room(rng),
            },
            // The next one, and one that is judged after all that is held: here
            // a parent below the node is taken, and left out at judging.
            5 | 6 => Call::Deliver(self.record(rng)),
            7 | 8 => {
                let make = rng.pick(&[
                    examples::up as fn(u8, u16, u16, &[u8]) -> Op,
                    examples::down,
                ]);
                let op = make(1 + rng.below(8) as u8, node, parent, &held(buffer));
                Call::Deliver(op.bytes().to_vec())
            }
            _ => Call::Judge {
                parents: table_room(rng),
                outcomes: table_room(rng),
            },
        }
    }

    fn any_call(&self, rng: &mut Rng, buffer: &[u8], holdback: &[u8]) -> Call {
        match rng.below(140) {
            0 => Call::Make,
            1..=35 => Call::Deliver(self.record(rng)),
            36 => Call::IsSound,
            37 => Call::End,
            38 => Call::Counts {
                room: rng.below(12),
            },
            39 => Call::Size { view: view(rng) },
            40..=49 => Call::Add {
                replica: replica(rng),
                parent: self.node(rng),
                room: record_room(rng),
            },
            50..=56 => Call::Remove {
                replica: replica(rng),
                node: self.node(rng),
                room: record_room(rng),
            },
            57..=72 => Call::Move {
                replica: replica(rng),
                node: self.node(rng),
                parent: self.node(rng),
                room: record_room(rng),
            },
            73..=81 => Call::Judge {
                parents: table_room(rng),
                outcomes: table_room(rng),
            },
            82..=90 => Call::Path {
                node: self.node(rng),
                room: if self.is_large() || rng.one_in(4) {
                    rng.pick(&[2041, 2040, 400, 20])
                } else {
                    rng.below(9)
                },
            },
            91..=95 => bundle_make(rng, buffer),
            96..=102 => Call::BundleOpen(self.bundle(rng, buffer)),
            112.. => {
                let holdback = self.holdback(rng, buffer, holdback);
                let op = self.next(rng, buffer, &holdback);
                Call::HoldbackDeliver { op, holdback }
            }
            _ => Call::Listing {
                view: view(rng),
                room: if self.is_large() || rng.one_in(4) {
                    rng.pick(&[24_492, 20_000, 2_000, 300])
                } else {
                    rng.below(120)
                },
            },
        }
    }

    /// An op to deliver: one of the world, or with a change, or noise.
    fn record(&self, rng: &mut Rng) -> Vec<u8> {
        if self.ops.is_empty() || rng.one_in(25) {
            return (0..rng.below(20)).map(|_| rng.byte()).collect();
        }
        // Often one of the next: an early one, or one that is accepted.
        let mut op = if self.held < self.ops.len() && rng.one_in(2) {
            let next = &self.ops[self.held..];
            next[rng.below(next.len().min(12))]
        } else {
            rng.pick(&self.ops)
        };
        match rng.below(14) {
            // Counts that are near.
            0 => {
                let at = rng.below(8);
                op.vector[at] = op.vector[at].wrapping_add(rng.pick(&[1, 2, 254, 255]));
            }
            1 => op.kind = rng.pick(&[Kind::Add, Kind::Remove, Kind::Up, Kind::Down]),
            2 => op.node = self.node(rng),
            3 => op.parent = self.node(rng),
            4 => return damage::record(rng, &op.bytes()),
            _ => {}
        }
        op.bytes().to_vec()
    }

    /// A bundle to open: made by the model for the buffer's counts or others, or
    /// of ops in any order, or noise; some are damaged. The model takes as long
    /// for an op of a bundle as for a delivery, so few have many ops.
    fn bundle(&self, rng: &mut Rng, buffer: &[u8]) -> Vec<u8> {
        let bundle = match rng.below(16) {
            0 => (0..rng.below(60)).map(|_| rng.byte()).collect(),
            1 => examples::bundle_of(&self.some(rng)),
            2..=4 => {
                let count = 1 + rng.below(4);
                let records: Vec<Vec<u8>> = (0..count).map(|_| self.record(rng)).collect();
                examples::bundle_with(&bodies(&records))
            }
            5 => examples::bundle_for(buffer, some_counts(rng, buffer)),
            _ => {
                let more = (1 + rng.below(14)).min(self.ops.len() - self.held);
                let mut ops = self.ops[..self.held + more].to_vec();
                if rng.one_in(4) {
                    ops = part(rng, &ops, 200);
                }
                // Where there is nothing new, at least something that is held.
                let counts = match more {
                    0 => less(rng, held(buffer)),
                    _ => some_counts(rng, buffer),
                };
                examples::bundle_for(&examples::file_of(&ops), counts)
            }
        };
        match rng.below(5) {
            0 if !bundle.is_empty() => damage::record(rng, &bundle),
            _ => bundle,
        }
    }

    /// A holdback: as it was left, or with ops that come next, often the last of
    /// them first, and others that never go, or of any bytes; some are damaged.
    /// The model takes as long for an op that it meets as for a delivery, so few
    /// have many at a large log.
    fn holdback(&self, rng: &mut Rng, buffer: &[u8], left: &[u8]) -> Vec<u8> {
        let mut holdback = match rng.below(12) {
            0 => any_holdback(rng),
            1..=4 => left.to_vec(),
            _ => holdback(rng, &self.ops, &held(buffer)),
        };
        if self.is_large() && is_in_order(&holdback) && !rng.one_in(20) {
            let count = holdback[0].min(3);
            holdback[0] = count;
            holdback[1 + OP_LEN * usize::from(count)..].fill(0);
        }
        match rng.below(40) {
            0 | 1 if is_in_order(&holdback) => damage::holdback(rng, &holdback),
            2 if !holdback.is_empty() => damage::random(rng, &holdback),
            _ => holdback,
        }
    }

    /// An op to deliver with a holdback: often the first that the log lacks, which
    /// frees others, or one soon after it, which waits; or a new one, if it lacks
    /// none. Now and then one that waits already, or that a full holdback refuses.
    fn next(&self, rng: &mut Rng, buffer: &[u8], holdback: &[u8]) -> Vec<u8> {
        if is_in_order(holdback) && rng.one_in(6) {
            let count = usize::from(holdback[0]);
            if count > 0 && rng.one_in(2) {
                let at = 1 + OP_LEN * rng.below(count);
                return holdback[at..at + OP_LEN].to_vec();
            }
            let (replica, early) = (1 + rng.below(8), 200 + rng.below(55));
            let early = examples::add(replica as u8, 0, &[early as u8; 8]);
            return early.bytes().to_vec();
        }
        let held = held(buffer);
        let is_lacking = |op: &&Op| op.sequence() > usize::from(held[op.index()]);
        let lacking: Vec<&Op> = self.ops.iter().filter(is_lacking).take(9).collect();
        let replica = 1 + rng.below(8);
        match (rng.below(8), &lacking[..]) {
            (0 | 1, _) => self.record(rng),
            (2 | 3, [_, later @ ..]) if !later.is_empty() => rng.pick(later).bytes().to_vec(),
            (_, [first, ..]) => first.bytes().to_vec(),
            _ if held[replica - 1] == 255 => self.record(rng),
            _ => examples::add(replica as u8, 0, &held).bytes().to_vec(),
        }
    }

    /// Some ops of the world, each once or more, in any order.
    fn some(&self, rng: &mut Rng) -> Vec<Op> {
        if self.ops.is_empty() {
            return vec![];
        }
        (0..rng.below(9)).map(|_| rng.pick(&self.ops)).collect()
    }

    /// A node number: mostly one of the world.
    fn node(&self, rng: &mut Rng) -> u16 {
        if rng.one_in(8) {
            return 0;
        }
        if self.ops.is_empty() || rng.one_in(12) {
            let odd = u16::from(rng.byte()) * 257;
            return rng.pick(&[1, 255, 256, 257, 511, 512, 513, 2303, 2304, 65_535, odd]);
        }
        rng.pick(&self.ops).node
    }
}

/// A parent that takes new work, and so many nodes that can be moved there, some of
/// them twice; none if there are no such nodes.
fn column(rng: &mut Rng, log: &Log, count: usize) -> Option<(Vec<u16>, u16)> {
    let tree = Tree::judge(log);
    let held = log.held();
    let unmarked = |&node: &u16| log.knowledge(&held, node) == Knowledge::Unmarked;
    let nodes: Vec<u16> = tree.nodes().filter(unmarked).collect();
    let parent = match nodes[..] {
        [] => 0,
        _ if rng.one_in(4) => 0,
        _ => rng.pick(&nodes),
    };
    let above: Vec<u16> = tree.path(parent).collect();
    let is_free = |node: &u16| !above.contains(node);
    let free: Vec<u16> = nodes.into_iter().filter(is_free).collect();
    if free.is_empty() {
        return None;
    }
    Some(((0..count).map(|_| rng.pick(&free)).collect(), parent))
}

/// A node that cannot be moved to the parent: one above it, the parent itself, or a
/// marked one; or any.
fn worse(rng: &mut Rng, log: &Log, parent: u16, any: u16) -> u16 {
    let (tree, held) = (Tree::judge(log), log.held());
    let marked = |&node: &u16| log.knowledge(&held, node) == Knowledge::Marked;
    let marked: Vec<u16> = tree.nodes().filter(marked).collect();
    match rng.below(3) {
        0 if log.knowledge(&held, parent).is_known() => {
            let path: Vec<u16> = tree.path(parent).collect();
            rng.pick(&path)
        }
        1 if !marked.is_empty() => rng.pick(&marked),
        _ => any,
    }
}

/// Often one that has ops left, where others have none.
fn replica_for(rng: &mut Rng, held: &Vector) -> u8 {
    let has_left = |&replica: &u8| usize::from(held[usize::from(replica) - 1]) < MAX_SEQUENCE;
    let left: Vec<u8> = (1..=8).filter(has_left).collect();
    match left[..] {
        [] => replica(rng),
        _ if rng.one_in(4) => replica(rng),
        _ => rng.pick(&left),
    }
}

/// An op of a replica that has met nothing since its last op, or one other op at
/// most: it is judged before much of what is held. None if the log is not sound or
/// the replica has no op left.
fn late(rng: &mut Rng, buffer: &[u8], node: u16, parent: u16) -> Option<Vec<u8>> {
    let log = Log::open(buffer)?;
    let held: Vec<&Op> = log.ops().collect();
    let replica = match held[..] {
        [] => 1 + rng.below(8) as u8,
        _ if rng.one_in(4) => 1 + rng.below(8) as u8,
        _ => rng.pick(&held).replica,
    };
    let index = usize::from(replica) - 1;
    let count = usize::from(log.held()[index]);
    if count == MAX_SEQUENCE {
        return None;
    }
    let mut counts = log.get(index, count).map_or([0; 8], with_itself);
    if !held.is_empty() && rng.one_in(2) {
        counts = join(&counts, &with_itself(rng.pick(&held)));
    }
    // Mostly of nodes that it knows.
    let known = |node: u16| log.knowledge(&counts, node).is_known();
    let is_given = parent == 0 || known(parent) || rng.one_in(20);
    let parent = if is_given { parent } else { 0 };
    let is_movable = known(node);
    let op = match rng.below(6) {
        0 | 1 if is_movable => examples::up(replica, node, parent, &counts),
        2 | 3 if is_movable => examples::down(replica, node, parent, &counts),
        4 if is_movable => examples::remove(replica, node, &counts),
        _ => examples::add(replica, parent, &counts),
    };
    Some(op.bytes().to_vec())
}

/// The ops that one counts, and this one.
fn with_itself(op: &Op) -> Vector {
    let mut counts = op.vector;
    counts[op.index()] = op.sequence() as u8;
    counts
}

/// Whether ops can be counted in it.
fn is_in_order(holdback: &[u8]) -> bool {
    holdback.len() == HOLDBACK && usize::from(holdback[0]) <= HOLDBACK_PLACES
}

/// Any bytes; most have the right length, and many nothing past their ops.
fn any_holdback(rng: &mut Rng) -> Vec<u8> {
    let mut holdback: Vec<u8> = (0..HOLDBACK).map(|_| rng.byte()).collect();
    match rng.below(4) {
        0 => holdback.resize(rng.below(2 * HOLDBACK), 0),
        1 => {}
        _ => {
            holdback[0] %= 34;
            let past = 1 + OP_LEN * usize::from(holdback[0]);
            holdback.truncate(past);
            holdback.resize(HOLDBACK, 0);
        }
    }
    holdback
}

/// Those that can stand in a bundle: 14 bytes, and one of the replicas.
fn bodies(records: &[Vec<u8>]) -> Vec<[u8; OP_LEN]> {
    let body = |record: &Vec<u8>| record[..].try_into().ok();
    let right = |body: &[u8; OP_LEN]| (1..=8).contains(&body[1]);
    records.iter().filter_map(body).filter(right).collect()
}

/// Counts to make a bundle for that is opened at this buffer: true ones, a bit
/// less, which has ops that are held, or a bit more; rarely any below.
fn some_counts(rng: &mut Rng, buffer: &[u8]) -> Vector {
    let held = held(buffer);
    let is_large = held.iter().any(|&count| count > 40);
    match rng.below(8) {
        0 if !is_large || rng.one_in(8) => below(rng, held),
        1 if !is_large || rng.one_in(20) => [0; 8],
        2 => held.map(|count| count.saturating_add(rng.byte() % 2)),
        3 | 4 => less(rng, held),
        _ => held,
    }
}

fn held(buffer: &[u8]) -> Vector {
    Log::open(buffer).map_or([0; 8], |log| log.held())
}

fn less(rng: &mut Rng, counts: Vector) -> Vector {
    counts.map(|count| count.saturating_sub(rng.byte() % 3))
}

/// Any counts up to these.
fn below(rng: &mut Rng, counts: Vector) -> Vector {
    counts.map(|count| rng.below(usize::from(count) + 1) as u8)
}

/// With exactly enough lent, or a bit less or more, or anything.
fn bundle_make(rng: &mut Rng, buffer: &[u8]) -> Call {
    let counts = match rng.below(6) {
        0 => std::array::from_fn(|_| rng.byte()),
        1 => [0; 8],
        2 => below(rng, [255; 8]),
        _ => some_counts(rng, buffer),
    };
    let length = examples::bundle_for(buffer, counts).len();
    let room = match rng.below(8) {
        0 => rng.below(100),
        1 => length.saturating_sub(1 + rng.below(20)),
        2 => LARGEST_BUNDLE + rng.below(40),
        3 | 4 => length + rng.below(40),
        _ => length,
    };
    Call::BundleMake { counts, room }
}

fn view(rng: &mut Rng) -> View {
    rng.pick(&[View::Keeping, View::Skipping])
}

fn replica(rng: &mut Rng) -> u8 {
    if rng.one_in(15) {
        rng.pick(&[0, 9, 10, 128, 255])
    } else {
        1 + rng.below(8) as u8
    }
}

fn record_room(rng: &mut Rng) -> usize {
    if rng.one_in(15) {
        rng.below(14)
    } else {
        14 + rng.below(6)
    }
}

/// For so many ops.
fn records_room(rng: &mut Rng, count: usize) -> usize {
    let needed = OP_LEN * count;
    match rng.below(20) {
        0 => rng.below(needed + 1),
        1 => needed.saturating_sub(1),
        _ => needed + rng.below(6),
    }
}

fn table_room(rng: &mut Rng) -> usize {
    match rng.below(20) {
        0 => SLOTS - 1,
        1 => rng.below(100),
        2 => SLOTS + rng.below(60),
        _ => SLOTS,
    }
}
