//! Calls with a live page: each sentence of the request, and a second way of
//! keeping a page, which takes back ops and judges them again.

mod common;

use common::*;
use outline_model::cases::damage::{stained, Entry};
use outline_model::cases::examples::*;
use outline_model::cases::world::{full, orders, part, Style, World};
use outline_model::cases::{damage, world};
use outline_model::rng::Rng;
use outline_model::*;

fn deliver_of(op: &Op) -> PageCall {
    PageCall::Deliver(op.bytes().to_vec())
}

fn issue_of(replica: u8, issue: Issue) -> PageCall {
    PageCall::Issue(replica, issue, 14)
}

fn page_of(ops: &[Op]) -> Tables {
    fresh_page(&file_of(ops))
}

/// A log with so much room behind it, and a page.
#[derive(Clone)]
struct Desk {
    buffer: Vec<u8>,
    page: Tables,
}

impl Desk {
    /// With the page of the log.
    fn new(ops: &[Op], room: usize) -> Desk {
        let file = file_of(ops);
        Desk {
            buffer: in_buffer(&file, file.len() + room),
            page: fresh_page(&file),
        }
    }

    fn with_page(mut self, page: &Tables) -> Desk {
        self.page.clone_from(page);
        self
    }

    fn call(&mut self, call: &PageCall) -> Paged {
        page_checked(&mut self.buffer, call, &mut self.page)
    }

    fn deliver(&mut self, op: &Op) -> Paged {
        self.call(&deliver_of(op))
    }

    /// Delivers what is accepted, and hands back how many were taken back.
    fn take(&mut self, op: &Op) -> usize {
        let paged = self.deliver(op);
        assert!(matches!(paged.answer, Accepted(_)), "{paged:?}");
        paged.taken
    }
}

// ---- the three tables

/// P1: the order is 1:1, 1:2, then 2:1, and 1:3 at the same timestamp.
#[test]
fn a_page_by_hand() {
    let mut desk = Desk::new(&[], 14 * 4);
    assert!(desk.page.order.iter().all(|&slot| slot == 0));
    for op in p1() {
        desk.take(&op);
    }
    let mut order = vec![1, 2, 256, 3];
    order.resize(2040, 0);
    assert_eq!(desk.page.order, order);
    let mut parents = vec![65535; 2041];
    parents[..3].copy_from_slice(&[0, 258, 0]);
    assert_eq!(desk.page.parents, parents);
    let mut outcomes = vec![0; 2041];
    outcomes[..4].copy_from_slice(&[0, 1, 1, 3]);
    outcomes[256] = 1;
    assert_eq!(desk.page.outcomes, outcomes);
}

/// Every held op's slot once, and then 0; the others as judging fills them.
#[test]
fn the_order_lists_each_slot_once() {
    let rng = &mut Rng::new(1);
    for round in 0..60 {
        let count = rng.below(120);
        let ops = World::random(rng, Style::mixed(1 + round % 8, count)).ops;
        let tables = Tables::of(&log_of(&ops));
        assert_eq!(tables, page_of(&ops));
        let slot = |op: &Op| 255 * op.index() + op.sequence();
        let mut slots: Vec<usize> = ops.iter().map(slot).collect();
        slots.sort_unstable();
        let mut listed: Vec<usize> = tables.order.iter().copied().map(usize::from).collect();
        assert!(listed[ops.len()..].iter().all(|&slot| slot == 0));
        listed.truncate(ops.len());
        listed.sort_unstable();
        assert_eq!(listed, slots);
    }
}

// ---- how many are taken back

#[test]
fn one_that_sorts_last_takes_back_none() {
    let chain = turns(60);
    let mut desk = Desk::new(&[], 14 * 60);
    for op in &chain {
        assert_eq!(desk.take(op), 0);
    }
    // At equal timestamps too: the last kind, or the lowest replica.
    let all = &[0, 0, 0, 3];
    for (held, last) in [
        (add(5, 0, all), add(1, 0, all)),
        (add(1, 0, all), remove(5, 1025, all)),
        (remove(1, 1025, all), up(5, 1025, 0, all)),
        (up(1, 1025, 0, all), down(5, 1025, 1026, all)),
        (down(5, 1025, 0, all), down(1, 1025, 1026, all)),
    ] {
        let mut desk = Desk::new(&[adds(4, 3), vec![held]].concat(), 14);
        assert_eq!(desk.take(&last), 0);
        // The other way round the first of them is late by one.
        let mut desk = Desk::new(&[adds(4, 3), vec![last]].concat(), 14);
        assert_eq!(desk.take(&held), 1);
    }
}

/// A chain of 200, and an op that counts ever more of it.
#[test]
fn late_by_every_number() {
    let chain = adds(4, 200);
    for count in 0..=200 {
        let after = 200 - usize::from(count);
        let vector = &[0, 0, 0, count];
        let taken = |op: Op| Desk::new(&chain, 14).take(&op);
        // The next of the chain has the same timestamp: the higher replica comes
        // first, and an add comes before all others.
        assert_eq!(taken(add(5, 0, vector)), after);
        let before_next = after.saturating_sub(1);
        assert_eq!(taken(add(3, 0, vector)), before_next);
        if count > 0 {
            assert_eq!(taken(remove(5, 1025, vector)), before_next);
            assert_eq!(taken(up(3, 1025, 0, vector)), before_next);
        }
    }
}

/// P10: three moves at one timestamp, the higher replica first.
#[test]
fn p10_in_every_order() {
    let ops = p10();
    let mut seen = vec![];
    for order in orders(&ops, 100) {
        let mut desk = Desk::new(&order[..3], 14 * 3);
        let taken: Vec<usize> = order[3..].iter().map(|op| desk.take(op)).collect();
        let replicas: Vec<u8> = order[3..].iter().map(|op| op.replica).collect();
        assert_eq!(desk.page.outcomes[1], 3);
        seen.push((replicas, taken));
    }
    seen.sort();
    assert_eq!(
        seen,
        [
            (vec![1, 2, 3], vec![0, 1, 2]),
            (vec![1, 3, 2], vec![0, 1, 1]),
            (vec![2, 1, 3], vec![0, 0, 2]),
            (vec![2, 3, 1], vec![0, 1, 0]),
            (vec![3, 1, 2], vec![0, 0, 1]),
            (vec![3, 2, 1], vec![0, 0, 0]),
        ]
    );
}

/// Whatever the order of arrival, the page in the end is one and the same.
#[test]
fn every_order_comes_to_one_page() {
    let mut histories = small_logs();
    histories.extend([rivals(), all_kinds()]);
    for ops in histories {
        for order in orders(&ops, 150) {
            let mut desk = Desk::new(&[], 14 * ops.len());
            for op in &order {
                desk.take(op);
            }
            assert_eq!(desk.page, page_of(&ops));
            // All of them again.
            for op in &order {
                assert_eq!(desk.deliver(op).answer, HadIt);
            }
        }
    }
}

#[test]
fn every_outcome_becomes_every_other() {
    let mut seen = vec![];
    for late in late_moves() {
        let mut desk = Desk::new(&late.held, 14);
        let before = desk.page.outcomes[1];
        assert!(desk.take(&late.late) > 0);
        assert_eq!([before, desk.page.outcomes[1]], late.outcomes);
        seen.push(late.outcomes);
    }
    seen.sort_unstable();
    assert_eq!(seen, [[1, 2], [1, 3], [2, 1], [2, 3], [3, 1], [3, 2]]);
}

/// Its vector is what is held, so its timestamp is above all others.
#[test]
fn an_issue_takes_back_none() {
    let rng = &mut Rng::new(2);
    let mut accepted = 0;
    for round in 0..300 {
        let count = 1 + rng.below(60);
        let ops = World::random(rng, Style::moves(1 + round % 8, count)).ops;
        let node = |rng: &mut Rng| {
            if rng.one_in(5) {
                0
            } else {
                rng.pick(&ops).node
            }
        };
        let mut desk = Desk::new(&ops, 14 * 4);
        for _ in 0..4 {
            let (one, two) = (node(rng), node(rng));
            let issue = rng.pick(&[Issue::Add(one), Issue::Remove(one), Issue::Move(one, two)]);
            let paged = desk.call(&issue_of(1 + rng.below(8) as u8, issue));
            assert_eq!(paged.taken, 0);
            accepted += usize::from(matches!(paged.answer, Accepted(_)));
        }
    }
    assert!(accepted > 400, "{accepted}");
}

/// A replica that issued nothing lacks no op of its own: the 1,785 of the others
/// all sort after its first add. On an untrue page it is all that are held.
#[test]
fn the_most_that_can_be_taken_back() {
    let seven = &longest_chain()[..7 * 255];
    let first = add(8, 0, &[]);
    assert_eq!(Desk::new(seven, 14).take(&first), 1785);
    let all = longest_chain();
    let (last, held) = all.split_last().unwrap();
    assert_eq!(Desk::new(held, 14).take(last), 0);
    let untrue = page_of(&all);
    assert_eq!(Desk::new(held, 14).with_page(&untrue).take(last), 2039);
}

// ---- untrue pages

/// Calls at the log of P11, of which each is accepted, with the number of ops
/// that sort after the new one.
fn at_p11() -> Vec<(PageCall, usize)> {
    vec![
        (deliver_of(&add(8, 0, &[])), 7),
        (deliver_of(&down(8, 770, 771, &[0, 0, 3])), 4),
        (deliver_of(&add(4, 0, &[2, 2, 3])), 0),
        (issue_of(4, Issue::Add(769)), 0),
        (issue_of(1, Issue::Remove(769)), 0),
        (issue_of(8, Issue::Move(771, 0)), 0),
    ]
}

#[test]
fn a_true_page_at_p11() {
    for (call, taken) in at_p11() {
        let paged = Desk::new(&p11(), 14).call(&call);
        assert_eq!((paged.answer, paged.taken), (Accepted(32 + 14 * 8), taken));
    }
}

/// One entry that counts is another: the page is rebuilt, and the report is all.
/// Also where the entry is one of the zeros after the order.
#[test]
fn every_single_stain() {
    let page = page_of(&p11());
    let calls = at_p11();
    let mut entries: Vec<Entry> = (0..2040).map(Entry::Order).collect();
    entries.extend((0..2041).flat_map(|slot| [Entry::Parent(slot), Entry::Outcome(slot)]));
    for (turn, entry) in entries.into_iter().enumerate() {
        let untrue = stained(&page, entry, 1 << (turn % 8));
        let mut desk = Desk::new(&p11(), 14).with_page(&untrue);
        let paged = desk.call(&calls[turn % 6].0);
        assert_eq!((paged.answer, paged.taken), (Accepted(144), 7), "{entry:?}");
    }
}

#[test]
fn pages_of_other_logs() {
    let mut pages: Vec<Tables> = small_logs().iter().map(|ops| page_of(ops)).collect();
    pages.push(page_of(&p11()[..6]));
    pages.push(page_of(&[p11(), adds(8, 1)].concat()));
    for value in [0, 1, 0xeeee, 0xffff] {
        pages.push(Tables {
            order: vec![value; 2040],
            parents: vec![value; 2041],
            outcomes: vec![value as u8; 2041],
        });
    }
    pages.retain(|page| *page != page_of(&p11()));
    assert_eq!(pages.len(), 11 - 1 + 6);
    for page in &pages {
        for (call, _) in at_p11() {
            let mut desk = Desk::new(&p11(), 14).with_page(page);
            assert_eq!(desk.call(&call).taken, 7);
            // It is true from here on.
            assert_eq!(desk.page, fresh_page(&desk.buffer));
        }
    }
}

/// Tree and outcomes are alike, and only the order of judging tells the logs
/// apart.
#[test]
fn the_order_alone_is_untrue() {
    let one = [add(1, 0, &[]), add(2, 0, &[])];
    let two = [add(1, 0, &[]), add(2, 0, &[1])];
    assert_eq!(page_of(&one).parents, page_of(&two).parents);
    assert_eq!(page_of(&one).outcomes, page_of(&two).outcomes);
    let last = add(1, 0, &[1, 1]);
    assert_eq!(Desk::new(&one, 14).take(&last), 0);
    assert_eq!(Desk::new(&one, 14).with_page(&page_of(&two)).take(&last), 2);
    assert_eq!(Desk::new(&two, 14).take(&last), 0);
    assert_eq!(Desk::new(&two, 14).with_page(&page_of(&one)).take(&last), 2);
}

/// A log goes on without its page: the next call that accepts rebuilds it.
#[test]
fn stale_pages() {
    let between = add(5, 0, &[]);
    type Aside = fn(&mut [u8], &Op) -> Answer;
    let asides: [(usize, Aside); 5] = [
        (5, |buffer, op| deliver(buffer, &op.bytes())),
        (5, |buffer, op| open_bundle(buffer, &bundle_of(&[*op]))),
        (5, |buffer, op| {
            deliver_holdback(buffer, &op.bytes(), &mut holdback_of(&[]))
        }),
        (5, |buffer, op| {
            issue_add(buffer, op.replica, 0, &mut [0; 14])
        }),
        (0, |buffer, _| make(buffer)),
    ];
    for (held, aside) in asides {
        let counts: &[u8] = if held == 0 { &[] } else { &[3, 1] };
        for op in [add(8, 0, &[]), add(8, 0, counts)] {
            let mut desk = Desk::new(&p1(), 14 * 3);
            let answer = aside(&mut desk.buffer, &between);
            assert_eq!(answer, Accepted(32 + 14 * held));
            // Neither a refusal nor had it makes it true again.
            assert_eq!(desk.deliver(&add(6, 9999, &[])).answer, Refused(7));
            if held > 0 {
                assert_eq!(desk.deliver(&p1()[0]).answer, HadIt);
            }
            assert_eq!(desk.take(&op), held);
            // From here on it is.
            assert_eq!(desk.page, fresh_page(&desk.buffer));
            desk.take(&add(3, 0, &[]));
        }
    }
}

#[test]
fn a_log_without_ops_has_none_to_take_back() {
    let rng = &mut Rng::new(3);
    let empty = page_of(&[]);
    let mut pages = vec![empty.clone(), page_of(&p1())];
    pages.extend((0..40).map(|_| damage::page(rng, &empty)));
    for page in pages {
        let calls = [deliver_of(&add(3, 0, &[])), issue_of(3, Issue::Add(0))];
        for call in calls {
            let paged = Desk::new(&[], 14).with_page(&page).call(&call);
            assert_eq!((paged.answer, paged.taken), (Accepted(46), 0));
        }
    }
}

// ---- lengths

fn resized(page: &Tables, lengths: [usize; 3]) -> Tables {
    let mut page = page.clone();
    page.order.resize(lengths[0], 0xeeee);
    page.parents.resize(lengths[1], 0xeeee);
    page.outcomes.resize(lengths[2], 0xee);
    page
}

/// 2 exactly if a table has less than it should; what is behind is not looked at.
#[test]
fn every_length_of_each_table() {
    let page = page_of(&p11());
    let right = [2040, 2041, 2041];
    for table in 0..3 {
        for length in 0..2200 {
            let mut lengths = right;
            lengths[table] = length;
            let (call, taken) = &at_p11()[length % 6];
            let mut desk = Desk::new(&p11(), 14).with_page(&resized(&page, lengths));
            let paged = desk.call(call);
            let expected = if length < right[table] {
                (Refused(2), 0)
            } else {
                (Accepted(144), *taken)
            };
            assert_eq!((paged.answer, paged.taken), expected);
        }
    }
}

/// 1 comes before a short page; this comes before had it and every other number.
#[test]
fn a_short_page_with_every_other_cause() {
    let held = marked();
    let short = [
        resized(&page_of(&held), [2039, 2041, 2041]),
        resized(&page_of(&held), [2040, 2040, 2041]),
        resized(&page_of(&held), [2040, 2041, 2040]),
        Tables::default(),
    ];
    let mut causes = vec![
        (HadIt, deliver_of(&held[2])),
        (Refused(2), PageCall::Deliver(vec![1; 13])),
        (Refused(3), PageCall::Deliver(vec![9; 14])),
        (Refused(4), deliver_of(&remove(3, 258, &[6]))),
        (Refused(5), deliver_of(&add(4, 0, &[6, 9]))),
        (Refused(6), deliver_of(&add(4, 0, &[0, 1]))),
        (Refused(7), deliver_of(&add(4, 9999, &[]))),
        (Refused(8), deliver_of(&add(4, 0, &[]))),
        (Refused(7), issue_of(4, Issue::Add(9999))),
        (Refused(8), issue_of(4, Issue::Add(0))),
        (Refused(11), issue_of(4, Issue::Add(257))),
        (Refused(7), issue_of(4, Issue::Remove(0))),
        (Refused(8), issue_of(4, Issue::Remove(257))),
        (Refused(7), issue_of(4, Issue::Move(262, 262))),
        (Refused(11), issue_of(4, Issue::Move(262, 261))),
        (Refused(10), issue_of(4, Issue::Move(258, 259))),
        (Refused(8), issue_of(4, Issue::Move(259, 260))),
    ];
    for issue in [Issue::Add(0), Issue::Remove(257), Issue::Move(258, 0)] {
        causes.push((Refused(3), issue_of(0, issue)));
        causes.push((Refused(3), issue_of(9, issue)));
        causes.push((Refused(2), PageCall::Issue(4, issue, 13)));
    }
    let mut untrue = Desk::new(&held, 13);
    untrue.page.parents[2040] = 1;
    for (expected, call) in causes {
        for mut desk in [Desk::new(&held, 13), untrue.clone()] {
            assert_eq!(desk.call(&call).answer, expected, "{call:?}");
        }
        for page in &short {
            let mut desk = Desk::new(&held, 13).with_page(page);
            assert_eq!(desk.call(&call).answer, Refused(2), "{call:?}");
            desk.buffer[1] ^= 1;
            assert_eq!(desk.call(&call).answer, Refused(1), "{call:?}");
        }
    }
}

/// A replica with 255 ops: 9 comes after a short page and before a node that is
/// not known.
#[test]
fn a_full_replica() {
    let held = adds(5, 255);
    for issue in [Issue::Add(9999), Issue::Remove(0), Issue::Move(1281, 1281)] {
        let mut desk = Desk::new(&held, 14);
        assert_eq!(desk.call(&issue_of(5, issue)).answer, Refused(9));
        desk.page.outcomes[3] = 2;
        assert_eq!(desk.call(&issue_of(5, issue)).answer, Refused(9));
        desk.page.outcomes.pop();
        assert_eq!(desk.call(&issue_of(5, issue)).answer, Refused(2));
    }
    let (last, held) = held.split_last().unwrap();
    assert_eq!(Desk::new(held, 14).take(last), 0);
    let paged = Desk::new(held, 14).call(&issue_of(5, Issue::Add(1281)));
    assert_eq!((paged.answer, paged.taken), (Accepted(32 + 14 * 255), 0));
}

// ---- the second way

/// Keeps a page as the request tells it: what sorts after the new op is taken
/// back, the op is judged, and those are judged again. It looks only at the log
/// with the op and at the page of the log without it.
struct TakeBack<'a> {
    log: &'a Log,
    /// By slot.
    timestamps: Vec<usize>,
    page: Tables,
    /// How many entries of the order are judged.
    judged: usize,
}

impl TakeBack<'_> {
    /// The page with the op, and how many were taken back.
    fn deliver(log: &Log, page: &Tables, op: &Op) -> (Tables, usize) {
        let judged = page.order.iter().take_while(|&&slot| slot != 0).count();
        let mut way = TakeBack {
            log,
            timestamps: timestamps(log),
            page: page.clone(),
            judged,
        };
        let mut behind = vec![];
        while way.judged > 0 && way.sorts_after(way.last(), op) {
            behind.push(way.take_back());
        }
        way.judge(op);
        for op in behind.iter().rev() {
            way.judge(op);
        }
        (way.page, behind.len())
    }

    fn op_at(&self, place: usize) -> &Op {
        let before = usize::from(self.page.order[place]) - 1;
        let held = self.log.get(before / 255, before % 255 + 1);
        held.expect("the order names held ops")
    }

    fn last(&self) -> &Op {
        self.op_at(self.judged - 1)
    }

    fn timestamp(&self, op: &Op) -> usize {
        self.timestamps[slot(op)]
    }

    fn sorts_after(&self, one: &Op, other: &Op) -> bool {
        let key = |op: &Op| (self.timestamp(op), op.kind as u8, 8 - op.replica);
        key(one) > key(other)
    }

    /// The last op is gone from the page, and its node hangs where it hung.
    fn take_back(&mut self) -> Op {
        let op = *self.last();
        let outcome = self.page.outcomes[slot(&op)];
        self.judged -= 1;
        self.page.order[self.judged] = 0;
        self.page.outcomes[slot(&op)] = 0;
        if op.kind != Kind::Remove && outcome == 1 {
            let before = self.placed_by(op.node).map(|op| op.parent);
            self.page.parents[slot_of(op.node)] = before.unwrap_or(65535);
        }
        op
    }

    /// The last judged op that placed a node.
    fn placed_by(&self, node: u16) -> Option<Op> {
        let places = (0..self.judged).rev();
        let mut ops = places.map(|place| *self.op_at(place));
        ops.find(|op| {
            let placed = op.kind != Kind::Remove && self.page.outcomes[slot(op)] == 1;
            placed && op.node == node
        })
    }

    fn judge(&mut self, op: &Op) {
        let outcome = match op.kind {
            Kind::Add | Kind::Remove => 1,
            Kind::Up | Kind::Down if self.has_rival(op) => 2,
            Kind::Up | Kind::Down if self.lies_below(op.parent, op.node) => 3,
            Kind::Up | Kind::Down => 1,
        };
        if op.kind != Kind::Remove && outcome == 1 {
            self.page.parents[slot_of(op.node)] = op.parent;
        }
        self.page.outcomes[slot(op)] = outcome;
        self.page.order[self.judged] = slot(op) as u16;
        self.judged += 1;
    }

    /// Whether a move of the same timestamp placed the node.
    fn has_rival(&self, op: &Op) -> bool {
        self.placed_by(op.node).is_some_and(|other| {
            other.kind.is_move() && self.timestamp(&other) == self.timestamp(op)
        })
    }

    fn lies_below(&self, mut below: u16, node: u16) -> bool {
        while below != node && below != 0 {
            below = self.page.parents[slot_of(below)];
        }
        below == node
    }
}

/// They grow until each is one more than the greatest within its vector.
fn timestamps(log: &Log) -> Vec<usize> {
    let mut timestamps = vec![1; SLOTS];
    loop {
        let mut grew = false;
        for op in log.ops() {
            let counted = (0..8).filter(|&index| op.vector[index] > 0);
            let last = counted.map(|index| 255 * index + usize::from(op.vector[index]));
            let timestamp = 1 + last.map(|slot| timestamps[slot]).max().unwrap_or(0);
            grew |= timestamp != timestamps[slot(op)];
            timestamps[slot(op)] = timestamp;
        }
        if !grew {
            return timestamps;
        }
    }
}

fn slot(op: &Op) -> usize {
    255 * op.index() + op.sequence()
}

/// Delivers with a page both ways, and hands back what the call came to.
fn both_ways(desk: &mut Desk, op: &Op) -> Paged {
    let page = desk.page.clone();
    let paged = desk.deliver(op);
    if let Accepted(_) = paged.answer {
        let log = Log::open(&desk.buffer).unwrap();
        let (other, taken) = TakeBack::deliver(&log, &page, op);
        assert!(other == desk.page, "the ways differ after {op:?}");
        assert_eq!(taken, paged.taken);
    }
    paged
}

/// Small worlds op by op in any order, with one page from the first to the last.
#[test]
fn both_ways_on_random_histories() {
    let rng = &mut Rng::new(4);
    let mut late = 0;
    let mut changes = [[0; 4]; 4];
    for round in 0..900 {
        let mut style = [Style::moves, Style::mixed][round % 2](1 + round % 8, 4 + rng.below(26));
        style.hear_one_in = 1 + rng.below(5);
        // Few nodes that all know, and many rivals.
        let deep = world::Deep {
            chains: 1 + rng.below(3),
            length: 2,
            moves: 6 + rng.below(20),
        };
        let world = match round % 3 {
            0 => World::random(rng, style),
            _ => World::deep(rng, deep),
        };
        let mut ops = world.ops;
        let mut desk = Desk::new(&[], 14 * ops.len());
        while !ops.is_empty() {
            rng.shuffle(&mut ops);
            ops.retain(|op| {
                let before = desk.page.outcomes.clone();
                let paged = both_ways(&mut desk, op);
                late += paged.taken;
                for (&one, &two) in before.iter().zip(&desk.page.outcomes) {
                    changes[usize::from(one)][usize::from(two)] += usize::from(one != two);
                }
                paged.answer == Refused(5)
            });
        }
    }
    assert!(late > 5000, "{late}");
    // Outcomes go from 0 once, and never back; the rest change in every way.
    for (outcome, row) in changes.iter().enumerate().skip(1) {
        assert!(row[0] == 0 && changes[0][outcome] > 200, "{changes:?}");
    }
    for (one, row) in changes.iter().enumerate().skip(1) {
        for (two, &count) in row.iter().enumerate().skip(1) {
            assert!(one == two || count > 5, "{changes:?}");
        }
    }
}

#[test]
fn both_ways_on_small_histories() {
    let mut histories = small_logs();
    histories.extend([rivals(), all_kinds()]);
    for late in late_moves() {
        histories.push([late.held, vec![late.late]].concat());
    }
    for ops in histories {
        for order in orders(&ops, 60) {
            let mut desk = Desk::new(&[], 14 * ops.len());
            for op in order {
                both_ways(&mut desk, &op);
            }
        }
    }
}

/// What a part of a deep tree lacks, one after the other.
#[test]
fn both_ways_on_deep_trees() {
    let rng = &mut Rng::new(5);
    let mut most = 0;
    for chains in [1, 3, 1, 3] {
        let deep = world::Deep {
            chains,
            length: 12,
            moves: 80,
        };
        let ops = World::deep(rng, deep).ops;
        let held = part(rng, &ops, 12);
        let mut lacking: Vec<Op> = ops
            .iter()
            .filter(|op| !held.contains(op))
            .copied()
            .collect();
        assert!(lacking.len() > 3);
        let mut desk = Desk::new(&held, 14 * lacking.len());
        while !lacking.is_empty() {
            rng.shuffle(&mut lacking);
            lacking.retain(|op| {
                let paged = both_ways(&mut desk, op);
                most = most.max(paged.taken);
                paged.answer == Refused(5)
            });
        }
    }
    assert!(most > 10, "{most}");
}

// ---- any page, any call

/// Parts of worlds with true, stained and short pages, each call lent what the
/// last one left. The checked call looks after all that is owed.
#[test]
fn any_page_with_any_call() {
    let rng = &mut Rng::new(6);
    let mut refused = [0; 12];
    let [mut accepted, mut had_it, mut rebuilt, mut late] = [0; 4];
    for round in 0..2500 {
        let style = [Style::moves, Style::mixed][round % 2](1 + round % 8, 1 + rng.below(40));
        let ops = World::random(rng, style).ops;
        let share = rng.below(ops.len() + 1);
        let held = part(rng, &ops[..share], 10);
        let room = rng.pick(&[0, 13, 14, 200, 200]);
        let mut desk = Desk::new(&held, room);
        if rng.one_in(25) {
            desk.buffer = damage::random(rng, &desk.buffer);
        }
        for _ in 0..4 {
            match rng.below(12) {
                0 | 1 if !is_short(&desk.page) => desk.page = damage::page(rng, &desk.page),
                2 => {
                    let lengths = rng.pick(&[[2039, 2041, 2041], [2040, 2041, 2040], [9, 9, 9]]);
                    desk.page = resized(&desk.page, lengths);
                }
                3 => desk.page = resized(&desk.page, [2040, 2041, 2041]),
                4 => desk.page = resized(&desk.page, [2300, 2100, 2050]),
                _ => {}
            }
            let call = some_call(rng, &ops, &desk.buffer);
            let before = bodies_if_sound(&desk.buffer);
            let paged = desk.call(&call);
            assert!(paged.taken <= before);
            match paged.answer {
                Accepted(_) => accepted += 1,
                HadIt => had_it += 1,
                Refused(number) => refused[usize::from(number)] += 1,
                other => panic!("{other:?}"),
            }
            rebuilt += usize::from(paged.taken == before && before > 9);
            late += usize::from(paged.taken > 0 && paged.taken < before);
        }
    }
    for number in [1, 2, 3, 4, 5, 7, 8, 10, 11] {
        assert!(refused[number] > 20, "{refused:?}");
    }
    assert!(accepted > 1500 && had_it > 300, "{accepted} {had_it}");
    assert!(rebuilt > 100 && late > 200, "{rebuilt} {late}");
}

/// An op of the world, now and then changed, or an issue.
fn some_call(rng: &mut Rng, ops: &[Op], buffer: &[u8]) -> PageCall {
    let (op, other) = (rng.pick(ops), rng.pick(ops));
    let replica = 1 + rng.below(8) as u8;
    let room = rng.pick(&[14, 14, 14, 20, 13]);
    match rng.below(16) {
        0 => PageCall::Deliver(damage::record(rng, &op.bytes())),
        1 => PageCall::Issue(replica, Issue::Add(op.node), room),
        2 => PageCall::Issue(replica, Issue::Remove(op.node), room),
        3..=5 => PageCall::Issue(replica, Issue::Move(op.node, other.node), room),
        6 | 7 => deliver_of(&op),
        _ => deliver_of(&some_next(rng, ops, buffer).unwrap_or(op)),
    }
}

/// An op that the log lacks, and that can go.
fn some_next(rng: &mut Rng, ops: &[Op], buffer: &[u8]) -> Option<Op> {
    let log = Log::open(buffer)?;
    let can_go = |op: &&Op| {
        let lacking = log.get(op.index(), op.sequence()).is_none();
        lacking && log.test_against(op).is_ok()
    };
    let next: Vec<Op> = ops.iter().filter(can_go).copied().collect();
    (!next.is_empty()).then(|| rng.pick(&next))
}

fn bodies_if_sound(buffer: &[u8]) -> usize {
    Log::open(buffer).map_or(0, |log| log.ops().count())
}

/// Some hundred ops come some places off, and the last of all that there can be.
#[test]
fn large_logs() {
    let rng = &mut Rng::new(7);
    let mut ops = World::random(rng, Style::moves(8, 260)).ops;
    ops.chunks_mut(20).for_each(|window| rng.shuffle(window));
    let mut desk = Desk::new(&[], 14 * ops.len());
    while !ops.is_empty() {
        ops.retain(|op| desk.deliver(op).answer == Refused(5));
    }
    for style in [Style::moves, Style::mixed] {
        let all = full(rng, style);
        let (last, held) = all.split_last().unwrap();
        let mut desk = Desk::new(held, 14);
        let paged = desk.deliver(last);
        assert_eq!(paged.answer, Accepted(FULL));
        assert!(!desk.page.order.contains(&0));
        assert_eq!(desk.deliver(&held[3]).answer, HadIt);
    }
}
