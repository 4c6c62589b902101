//! Two collections that meet: random lists of calls, then rounds.

mod common;

use common::*;
use outline_model::cases::world::{self, Style, World};
use outline_model::cases::{damage, examples};
use outline_model::rng::Rng;
use outline_model::*;
use std::collections::BTreeMap;

/// A collection with what the calls so far say that it holds.
struct Side {
    buffer: Vec<u8>,
    /// Lent with a delivery as the last one left it, or with any other content.
    holdback: Vec<u8>,
    /// Lent as the last call with a page left it, or with any other content.
    page: Tables,
    held: Vec<Vec<u8>>,
    /// The replicas that issue here and nowhere else.
    replicas: Vec<u8>,
    tally: Tally,
}

/// What the calls came to.
#[derive(Clone, Copy, Default, Debug)]
struct Tally {
    adds: usize,
    moves: usize,
    removes: usize,
    /// Issues refused with 11.
    marked: usize,
    /// Deliveries of adds and moves that name a node with a mark here.
    unmet: usize,
    /// Bundles that were opened, and that were refused.
    opened: usize,
    shut: usize,
    /// Ops that went to a holdback, and that were taken from one.
    waiting: usize,
    freed: usize,
    /// Holdbacks that were refused.
    bad: usize,
    /// Accepted calls with a page, and the ops that they took back.
    paged: usize,
    taken: usize,
    /// Accepted batches, their moves, and batches that were refused.
    batches: usize,
    batched: usize,
    refused: usize,
}

impl Side {
    fn new(length: usize, replicas: Vec<u8>) -> Side {
        Side {
            buffer: empty(length),
            holdback: holdback_from(&[]),
            page: Tables::of(&Log::default()),
            held: vec![],
            replicas,
            tally: Tally::default(),
        }
    }

    fn make(&mut self) {
        make_checked(&mut self.buffer);
        self.held.clear();
    }

    fn deliver(&mut self, op: &[u8]) {
        if let Accepted(_) = deliver_checked(&mut self.buffer, op) {
            let named: &[[u8; 2]] = match op[0] {
                1 => &[[op[4], op[5]]],
                2 => &[],
                _ => &[[op[2], op[3]], [op[4], op[5]]],
            };
            let marked = named
                .iter()
                .any(|&node| self.is_marked(u16::from_be_bytes(node)));
            self.tally.unmet += usize::from(marked);
            self.held.push(op.to_vec());
        }
    }

    /// Opening joins the list with the ops of the bundle that it lacks.
    fn open(&mut self, bundle: &[u8]) {
        if !matches!(open_checked(&mut self.buffer, bundle), Accepted(_)) {
            self.tally.shut += 1;
            return;
        }
        self.tally.opened += 1;
        for op in bundled(bundle) {
            if !self.held.contains(&op) {
                self.held.push(op);
            }
        }
    }

    /// A delivery with a holdback joins the list with the op and those that it frees:
    /// what a plain delivery of each, in the order of the search, would accept.
    fn deliver_holdback(&mut self, op: &[u8]) {
        let mut plain = self.buffer.clone();
        let waited = match self.holdback.len() {
            449 if self.holdback[0] <= 32 => waiting(&self.holdback),
            _ => vec![],
        };
        match holdback_checked(&mut self.buffer, op, &mut self.holdback) {
            Waiting => self.tally.waiting += 1,
            Refused(14) => self.tally.bad += 1,
            Accepted(_) => {
                let mut next = Some(op.to_vec());
                while let Some(op) = next {
                    assert!(matches!(deliver(&mut plain, &op), Accepted(_)));
                    self.held.push(op);
                    let can_go =
                        |op: &&Vec<u8>| matches!(deliver(&mut plain.clone(), op), Accepted(_));
                    next = waited.iter().find(can_go).cloned();
                    self.tally.freed += usize::from(next.is_some());
                }
            }
            _ => {}
        }
    }

    /// A call with a page joins the list with what the plain call would add.
    fn call_with_page(&mut self, call: &PageCall) -> Option<Vec<u8>> {
        let paged = page_checked(&mut self.buffer, call, &mut self.page);
        if !matches!(paged.answer, Accepted(_)) {
            return None;
        }
        self.tally.paged += 1;
        self.tally.taken += paged.taken;
        let op = match call {
            PageCall::Deliver(op) => op.clone(),
            PageCall::Issue(..) => paged.out,
        };
        self.held.push(op.clone());
        Some(op)
    }

    fn counts(&self) -> Vector {
        std::array::from_fn(|index| self.count(index as u8 + 1) as u8)
    }

    /// Whether a remove of the node is held.
    fn is_marked(&self, node: u16) -> bool {
        let bytes = node.to_be_bytes();
        self.held.iter().any(|op| op[0] == 2 && op[2..4] == bytes)
    }

    fn issue(&mut self, replica: u8, issue: Issue) -> Option<Vec<u8>> {
        let (answer, op) = issue_checked(&mut self.buffer, replica, issue);
        let tally = &mut self.tally;
        match (answer, issue) {
            (Accepted(_), Issue::Add(_)) => tally.adds += 1,
            (Accepted(_), Issue::Move(..)) => tally.moves += 1,
            (Accepted(_), Issue::Remove(_)) => tally.removes += 1,
            (answer, _) => tally.marked += usize::from(answer == Refused(11)),
        }
        matches!(answer, Accepted(_)).then(|| {
            self.held.push(op.clone());
            op
        })
    }

    /// A batch joins the list with all of its moves, or with none.
    fn issue_moves(&mut self, replica: u8, parent: u16, nodes: &[u16]) -> Vec<Vec<u8>> {
        let room = 14 * nodes.len();
        let (answer, out) = batch_in(&mut self.buffer, replica, parent, nodes, room);
        if !matches!(answer, Accepted(_)) {
            self.tally.refused += 1;
            return vec![];
        }
        self.tally.batches += 1;
        self.tally.batched += nodes.len();
        let ops: Vec<Vec<u8>> = out.chunks(14).map(<[u8]>::to_vec).collect();
        self.held.extend(ops.clone());
        ops
    }

    fn count(&self, replica: u8) -> usize {
        self.held.iter().filter(|op| op[1] == replica).count()
    }

    /// The file is the table and bodies of the held ops.
    fn check(&self) {
        let file = layout(&self.held);
        assert_eq!(self.buffer[..file.len()], file);
    }
}

/// All sides, and every op that was issued anywhere.
struct Meeting {
    sides: Vec<Side>,
    issued: Vec<Vec<u8>>,
}

impl Meeting {
    fn random(rng: &mut Rng) -> Meeting {
        let count = 2 + rng.below(7);
        let sides = (0..count)
            .map(|side| {
                let length = rng.pick(&[FULL, FULL, 2000, 300, 100]);
                let own = (1..=8).filter(|replica| replica % count == side);
                Side::new(length, own.map(|replica| replica as u8).collect())
            })
            .collect();
        let mut meeting = Meeting {
            sides,
            issued: vec![],
        };
        for _ in 0..20 + rng.below(400) {
            let at = rng.below(count);
            meeting.step(rng, at);
            meeting.sides[at].check();
        }
        meeting
    }

    fn step(&mut self, rng: &mut Rng, at: usize) {
        match rng.below(100) {
            0 => self.sides[at].make(),
            1..=3 => self.refused(rng, at),
            4..=25 => self.issue(rng, at),
            26..=30 => self.meet(rng, at),
            31..=35 => self.meet_by_bundle(rng, at),
            _ if self.issued.is_empty() => {}
            36 => {
                let issued = &self.issued[rng.below(self.issued.len())];
                self.sides[at].deliver(&damage::record(rng, issued));
            }
            37..=59 => self.sides[at].deliver(&self.issued[rng.below(self.issued.len())]),
            60..=63 => self.lend_holdback(rng, at),
            64..=79 => self.deliver_holdback(rng, at),
            80 | 81 => self.sides[at].page = damage::page(rng, &self.sides[at].page),
            82 => self.sides[at].page = Tables::of(&Log::default()),
            _ => {
                let op = self.some_lacking(rng, at);
                self.sides[at].call_with_page(&PageCall::Deliver(op));
            }
        }
    }

    /// Another holdback: an empty one, one of ops that were issued, or of any content.
    fn lend_holdback(&mut self, rng: &mut Rng, at: usize) {
        let side = &mut self.sides[at];
        side.holdback = holdback_from(&[]);
        if !self.issued.is_empty() && !rng.one_in(3) {
            let count = rng.below(33);
            let some = |_| self.issued[rng.below(self.issued.len())].clone();
            side.holdback = holdback_from(&(0..count).map(some).collect::<Vec<_>>());
        }
        match rng.below(12) {
            0 => side.holdback = damage::holdback(rng, &side.holdback),
            1 => side.holdback = world::holdback(rng, &[], &[0; 8]),
            2 => side.holdback = damage::random(rng, &side.holdback),
            _ => {}
        }
    }

    /// With what is lent there.
    fn deliver_holdback(&mut self, rng: &mut Rng, at: usize) {
        let op = self.some_lacking(rng, at);
        self.sides[at].deliver_holdback(&op);
    }

    /// Mostly one of the next that some other holds, so that some are early.
    fn some_lacking(&self, rng: &mut Rng, at: usize) -> Vec<u8> {
        let from = rng.below(self.sides.len());
        let held = &self.sides[at].held;
        let lacking = |op: &&Vec<u8>| !held.contains(op);
        let next: Vec<Vec<u8>> = self.sides[from]
            .held
            .iter()
            .filter(lacking)
            .take(6)
            .cloned()
            .collect();
        let mut op = match next.len() {
            0 => self.issued[rng.below(self.issued.len())].clone(),
            count => next[rng.below(count)].clone(),
        };
        if rng.one_in(30) {
            op = damage::record(rng, &op);
        }
        op
    }

    fn refused(&mut self, rng: &mut Rng, at: usize) {
        let buffer = &mut self.sides[at].buffer;
        let node = rng.below(3000) as u16;
        let replica = rng.pick(&[0, 9, 255]);
        assert_eq!(
            issue_checked(buffer, replica, Issue::Add(node)).0,
            Refused(3)
        );
        let answer = issue_in(buffer, 1, Issue::Remove(node), 13).0;
        assert_eq!(answer, Refused(2));
    }

    /// A replica that lost its ops by making again waits until it has them
    /// back, or it would issue others under the same sequences.
    fn issue(&mut self, rng: &mut Rng, at: usize) {
        let replica = rng.pick(&self.sides[at].replicas);
        let issued = self.issued.iter().filter(|op| op[1] == replica).count();
        if self.sides[at].count(replica) != issued {
            return;
        }
        let node = some_node(rng, &self.sides[at]);
        let parent = some_node(rng, &self.sides[at]);
        let issue = match rng.below(8) {
            0..=2 => Issue::Add(parent),
            3 => Issue::Remove(node),
            _ => Issue::Move(node, parent),
        };
        let nodes: Vec<u16> = (0..rng.below(5))
            .map(|_| some_node(rng, &self.sides[at]))
            .collect();
        let side = &mut self.sides[at];
        if rng.one_in(6) {
            self.issued
                .extend(side.issue_moves(replica, parent, &nodes));
            return;
        }
        let issued = if rng.one_in(5) {
            side.call_with_page(&PageCall::Issue(replica, issue, 14))
        } else {
            side.issue(replica, issue)
        };
        self.issued.extend(issued);
    }

    /// One side takes all that another holds.
    fn meet(&mut self, rng: &mut Rng, at: usize) {
        let from = rng.below(self.sides.len());
        for op in self.sides[from].held.clone() {
            self.sides[at].deliver(&op);
        }
    }

    /// One side opens what another has beyond its counts, be these true, older
    /// or any; now and then the bundle is damaged on its way.
    fn meet_by_bundle(&mut self, rng: &mut Rng, at: usize) {
        let from = rng.below(self.sides.len());
        let counts = self.sides[at].counts();
        let counts = match rng.below(4) {
            0 => counts.map(|count| rng.below(usize::from(count) + 1) as u8),
            1 => std::array::from_fn(|_| rng.below(6) as u8),
            _ => counts,
        };
        let mut bundle = bundle_checked(&self.sides[from].buffer, counts);
        if rng.one_in(6) {
            bundle = damage::record(rng, &bundle);
        }
        self.sides[at].open(&bundle);
    }
}

/// Mostly one that takes new work, now and then a marked one or the root.
fn some_node(rng: &mut Rng, side: &Side) -> u16 {
    let node = |op: &Vec<u8>| u16::from_be_bytes([op[2], op[3]]);
    let mut nodes: Vec<u16> = side.held.iter().map(node).collect();
    if !rng.one_in(6) {
        nodes.retain(|&node| !side.is_marked(node));
    }
    if nodes.is_empty() || rng.one_in(10) {
        return 0;
    }
    rng.pick(&nodes)
}

/// Ops by replica and sequence.
type Ops = BTreeMap<(u8, u8), Vec<u8>>;

fn ops(file: &[u8]) -> Ops {
    let key = |op: &Vec<u8>| (op[1], op[5 + usize::from(op[1])]);
    bodies(file).into_iter().map(|op| (key(&op), op)).collect()
}

/// The same replica and sequence is the same op on both sides.
fn premise(a: &Ops, b: &Ops) -> bool {
    a.iter().all(|(key, op)| b.get(key).is_none_or(|o| o == op))
}

/// Runs rounds until nothing is lacking, and checks all that is claimed.
fn rounds(rng: &mut Rng, files: [&[u8]; 2]) {
    let mut buffers = files.map(|file| in_buffer(file, FULL));
    let held = [ops(&buffers[0]), ops(&buffers[1])];
    let mut all = held[0].clone();
    all.extend(held[1].clone());
    let lacking = 2 * all.len() - held[0].len() - held[1].len();
    let mut accepted: Vec<(usize, Vec<u8>)> = vec![];
    let mut count = 0;
    while accepted.len() < lacking {
        let before = accepted.len();
        accepted.extend(round(rng, &mut buffers));
        assert!(accepted.len() > before, "a round without progress");
        count += 1;
        assert!(count <= lacking);
    }
    let mut expected: Vec<(usize, Vec<u8>)> = vec![];
    for side in [0, 1] {
        let missing = all.iter().filter(|(key, _)| !held[side].contains_key(key));
        expected.extend(missing.map(|(_, op)| (side, op.clone())));
    }
    accepted.sort();
    expected.sort();
    assert_eq!(accepted, expected);
    check_alike(&buffers, &all.into_values().collect::<Vec<_>>());
    assert!(round(rng, &mut buffers).is_empty());
}

/// One round; hands back who accepted what.
fn round(rng: &mut Rng, buffers: &mut [Vec<u8>; 2]) -> Vec<(usize, Vec<u8>)> {
    let mut offers = vec![];
    for (to, from) in [(0, 1), (1, 0)] {
        for op in bodies(&buffers[from]) {
            let times = if rng.one_in(5) { 1 + rng.below(3) } else { 1 };
            offers.extend(vec![(to, op); times]);
        }
    }
    match rng.below(4) {
        0 => offers.reverse(),
        1 => {}
        _ => rng.shuffle(&mut offers),
    }
    offers.retain(|(to, op)| match deliver_checked(&mut buffers[*to], op) {
        Accepted(_) => true,
        HadIt | Refused(5) => false,
        other => panic!("{other:?}"),
    });
    offers
}

fn check_alike(buffers: &[Vec<u8>; 2], all: &[Vec<u8>]) {
    let file = layout(all);
    buffers
        .iter()
        .for_each(|buffer| assert_eq!(buffer[..file.len()], file));
    let tables = judged(&buffers[0]);
    assert_eq!(tables, judged(&buffers[1]));
    let added: Vec<&Vec<u8>> = all.iter().filter(|op| op[0] == 1).collect();
    for op in &added {
        let mut node = u16::from_be_bytes([op[2], op[3]]);
        let mut steps = 0;
        while node != 0 {
            node = tables.0[slot_of(node)];
            steps += 1;
            assert!(node != NO_PARENT && steps <= added.len());
        }
    }
}

#[test]
fn random_lists_then_rounds() {
    let mut met = 0;
    let mut skipped = 0;
    let mut all = Tally::default();
    for seed in 0..300 {
        let rng = &mut Rng::new(800 + seed);
        let meeting = Meeting::random(rng);
        for tally in meeting.sides.iter().map(|side| side.tally) {
            all.adds += tally.adds;
            all.moves += tally.moves;
            all.removes += tally.removes;
            all.marked += tally.marked;
            all.unmet += tally.unmet;
            all.opened += tally.opened;
            all.shut += tally.shut;
            all.waiting += tally.waiting;
            all.freed += tally.freed;
            all.bad += tally.bad;
            all.paged += tally.paged;
            all.taken += tally.taken;
            all.batches += tally.batches;
            all.batched += tally.batched;
            all.refused += tally.refused;
        }
        for i in 0..meeting.sides.len() {
            for j in 0..i {
                let (a, b) = (&meeting.sides[i], &meeting.sides[j]);
                let files = [layout(&a.held), layout(&b.held)];
                if premise(&ops(&files[0]), &ops(&files[1])) {
                    rounds(rng, [&files[0], &files[1]]);
                    met += 1;
                } else {
                    skipped += 1;
                }
            }
        }
    }
    assert!(met > 1000 && skipped < met, "{met} {skipped}");
    // The lists do work, and meet marks at issue as well as past it.
    assert!(all.adds > 1000 && all.moves > 1000, "{all:?}");
    assert!(all.removes > 300 && all.marked > 300, "{all:?}");
    assert!(all.unmet > 300, "{all:?}");
    assert!(all.opened > 1000 && all.shut > 300, "{all:?}");
    assert!(all.waiting > 1000 && all.freed > 500, "{all:?}");
    assert!(all.bad > 50, "{all:?}");
    assert!(all.paged > 1000 && all.taken > 1000, "{all:?}");
    assert!(all.batches > 300 && all.batched > 200, "{all:?}");
    assert!(all.refused > 300, "{all:?}");
}

/// Parts of one large world, as two sides came to hold them.
#[test]
fn large_parts_meet() {
    for seed in 0..3 {
        let rng = &mut Rng::new(900 + seed);
        let world = World::random(rng, Style::mixed(8, 500)).ops;
        let parts = [0, 1].map(|_| {
            let mut buffer = empty(FULL);
            for op in &world {
                // One left out makes what builds on it early.
                if !rng.one_in(40) {
                    deliver_checked(&mut buffer, &op.bytes());
                }
            }
            layout(&bodies(&buffer))
        });
        rounds(rng, [&parts[0], &parts[1]]);
    }
}

#[test]
fn nothing_and_everything_meet() {
    let rng = &mut Rng::new(950);
    let full = examples::file_of(&examples::longest_chain()[..300]);
    let none = empty(32);
    rounds(rng, [&full, &none]);
    rounds(rng, [&none, &none]);
    rounds(rng, [&full, &full]);
}
