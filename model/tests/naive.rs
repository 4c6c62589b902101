//! The model against the document's definitions, written out a second time on
//! plain lists with no thought of speed.

mod common;

use common::*;
use outline_model::cases::examples::*;
use outline_model::cases::{damage, world};
use outline_model::rng::Rng;
use outline_model::*;
use std::collections::{BTreeMap, BTreeSet};

type Body = Vec<u8>;

fn own(body: &Body) -> (usize, usize) {
    let replica = usize::from(body[1]);
    (replica, usize::from(body[5 + replica]) + 1)
}

fn node(body: &Body) -> u16 {
    u16::from(body[2]) * 256 + u16::from(body[3])
}

fn parent(body: &Body) -> u16 {
    u16::from(body[4]) * 256 + u16::from(body[5])
}

/// Whether `inner` is within the context of `body`.
fn within(inner: &Body, body: &Body) -> bool {
    let (replica, sequence) = own(inner);
    sequence <= usize::from(body[5 + replica])
}

/// Grows until nothing changes; every op within a context counts.
fn timestamps(bodies: &[Body]) -> Vec<usize> {
    let mut stamps = vec![1; bodies.len()];
    loop {
        let next: Vec<usize> = bodies
            .iter()
            .map(|body| {
                let seen = (0..bodies.len()).filter(|&i| within(&bodies[i], body));
                1 + seen.map(|i| stamps[i]).max().unwrap_or(0)
            })
            .collect();
        if next == stamps {
            return stamps;
        }
        stamps = next;
    }
}

#[derive(Default)]
struct Naive {
    parents: BTreeMap<u16, u16>,
    marks: BTreeSet<u16>,
    fates: BTreeMap<(usize, usize), u8>,
}

impl Naive {
    fn judge(bodies: &[Body]) -> Naive {
        let stamps = timestamps(bodies);
        let mut order: Vec<usize> = (0..bodies.len()).collect();
        order.sort_by_key(|&i| (stamps[i], bodies[i][0], 9 - bodies[i][1]));
        let mut tree = Naive::default();
        let mut applied: Vec<(usize, u16)> = vec![];
        for i in order {
            let (body, node, parent) = (&bodies[i], node(&bodies[i]), parent(&bodies[i]));
            let fate = match body[0] {
                1 => {
                    tree.parents.insert(node, parent);
                    1
                }
                2 => {
                    tree.marks.insert(node);
                    1
                }
                _ if applied.contains(&(stamps[i], node)) => 2,
                _ if parent == node || tree.below(node).contains(&parent) => 3,
                _ => {
                    tree.parents.insert(node, parent);
                    applied.push((stamps[i], node));
                    1
                }
            };
            tree.fates.insert(own(body), fate);
        }
        tree
    }

    fn children(&self, node: u16) -> Vec<u16> {
        let mut children: Vec<u16> = self.parents.keys().copied().collect();
        children.retain(|child| self.parents[child] == node);
        children
    }

    /// Everything below the node, found downwards.
    fn below(&self, node: u16) -> Vec<u16> {
        let mut found = vec![];
        for child in self.children(node) {
            found.push(child);
            found.extend(self.below(child));
        }
        found
    }

    fn shown(&self, node: u16, view: View) -> bool {
        let marked = |node: &u16| self.marks.contains(node);
        match view {
            View::Keeping => !marked(&node) || self.below(node).iter().any(|n| !marked(n)),
            View::Skipping => {
                let above = |n: &&u16| **n == node || self.below(**n).contains(&node);
                !self.parents.keys().filter(above).any(marked)
            }
        }
    }

    fn lines(&self, node: u16, depth: usize, view: View) -> String {
        if !self.shown(node, view) {
            return String::new();
        }
        let mark = if self.marks.contains(&node) { 'r' } else { 'k' };
        let mut text = format!("{depth} {node} {mark}\n");
        for child in self.children(node) {
            text += &self.lines(child, depth + 1, view);
        }
        text
    }

    fn path(&self, node: u16) -> Vec<u16> {
        match self.parents.get(&node) {
            Some(&parent) => [vec![node], self.path(parent)].concat(),
            None => vec![node],
        }
    }
}

fn compare(ops: &[Op]) -> [usize; 4] {
    let file = file_of(ops);
    let bodies: Vec<Body> = ops.iter().map(|op| op.bytes().to_vec()).collect();
    let naive = Naive::judge(&bodies);
    let (parents, outcomes) = judged(&file);
    let mut seen = [0; 4];
    for replica in 1..=8usize {
        for sequence in 1..=255 {
            let slot = 255 * (replica - 1) + sequence;
            let number = (256 * replica + sequence) as u16;
            let parent = naive.parents.get(&number).copied().unwrap_or(65535);
            let fate = naive.fates.get(&(replica, sequence)).copied().unwrap_or(0);
            assert_eq!((parents[slot], outcomes[slot]), (parent, fate));
            seen[usize::from(fate)] += 1;
        }
    }
    for view in [View::Keeping, View::Skipping] {
        assert_eq!(listed(&file, view), naive.lines(0, 0, view));
    }
    for &node in naive.parents.keys() {
        assert_eq!(path_in(&file, node, 2041).1, naive.path(node));
    }
    compare_climbs(&log_of(ops), &naive);
    seen
}

/// Every climb, against what is found downwards: the steps are those on the way
/// that lie below the node, or all, if the parent does not.
fn compare_climbs(log: &Log, naive: &Naive) {
    let tree = Tree::judge(log);
    let mut below = BTreeMap::from([(0, naive.below(0))]);
    for &node in naive.parents.keys() {
        below.insert(node, naive.below(node));
    }
    let is_below = |inner: u16, outer: u16| below[&outer].contains(&inner);
    for &parent in below.keys() {
        let way = |&&at: &&u16| at == parent || is_below(parent, at);
        let way: Vec<u16> = naive.parents.keys().filter(way).copied().collect();
        for &node in below.keys() {
            let met = parent == node || is_below(parent, node);
            let counts = |&&at: &&u16| !met || is_below(at, node);
            let steps = way.iter().filter(counts).count();
            assert_eq!(tree.climb_to(parent, node), Climb { met, steps });
        }
    }
}

#[test]
fn judging_views_and_paths() {
    small_logs().iter().for_each(|ops| {
        compare(ops);
    });
    let mut seen = [0; 4];
    for seed in 0..400 {
        let rng = &mut Rng::new(700 + seed);
        let replicas = 2 + rng.below(7);
        let count = 5 + rng.below(60);
        let style = if rng.one_in(3) {
            world::Style::mixed
        } else {
            world::Style::moves
        };
        let ops = world::World::random(rng, style(replicas, count)).ops;
        let counted = compare(&ops);
        (0..4).for_each(|fate| seen[fate] += counted[fate]);
    }
    // The random logs are of use only if moves do collide.
    assert!(seen[2] > 300 && seen[3] > 300, "{seen:?}");
}

/// The bodies beyond the counts, the one to be judged next first.
fn bundle(bodies: &[Body], counts: &[u8]) -> Vec<u8> {
    let stamps = timestamps(bodies);
    let lacks = |body: &Body| own(body).1 > usize::from(counts[own(body).0 - 1]);
    let mut left: Vec<usize> = (0..bodies.len()).filter(|&i| lacks(&bodies[i])).collect();
    let mut head = vec![0];
    for replica in 1..=8 {
        let count = left.iter().filter(|&&i| own(&bodies[i]).0 == replica);
        match count.count() {
            0 => {}
            count => {
                head[0] += 2u8.pow(replica as u32 - 1);
                head.push(count as u8);
            }
        }
    }
    // Whether one is judged before another.
    let before = |i: usize, j: usize| {
        stamps[i] < stamps[j]
            || stamps[i] == stamps[j] && bodies[i][0] < bodies[j][0]
            || stamps[i] == stamps[j] && bodies[i][0] == bodies[j][0] && bodies[i][1] > bodies[j][1]
    };
    while !left.is_empty() {
        let first = |&i: &usize| left.iter().all(|&j| j == i || before(i, j));
        let next = left.iter().copied().find(first).expect("a first one");
        head.extend(&bodies[next]);
        left.retain(|&i| i != next);
    }
    head
}

#[test]
fn bundles() {
    let mut lengths = 0;
    for seed in 0..400 {
        let rng = &mut Rng::new(1300 + seed);
        let style = rng.pick(&[
            world::Style::mixed as fn(usize, usize) -> world::Style,
            world::Style::moves,
        ]);
        let style = style(1 + rng.below(8), rng.below(60));
        let ops = world::World::random(rng, style).ops;
        let file = file_of(&ops);
        let bodies = bodies(&file);
        let held = log_of(&ops).held();
        for _ in 0..6 {
            let counts = match rng.below(4) {
                0 => [0; 8],
                1 => held.map(|count| count.wrapping_add(rng.byte() % 3).wrapping_sub(1)),
                2 => std::array::from_fn(|_| rng.below(12) as u8),
                _ => held.map(|count| rng.below(usize::from(count) + 1) as u8),
            };
            let expected = bundle(&bodies, &counts);
            assert_eq!(bundle_checked(&file, counts), expected);
            lengths += expected.len();
        }
    }
    assert!(lengths > 400_000, "{lengths}");
}

/// What is known of a node in a context, by all ops within it.
fn knowledge(context: &[u8], node: u16, body: &dyn Fn(usize, usize) -> Body) -> Knowledge {
    let count = |replica: usize| usize::from(context[replica - 1]);
    let (replica, sequence) = (usize::from(node / 256), usize::from(node % 256));
    let added = (1..=8).contains(&replica)
        && sequence >= 1
        && sequence <= count(replica)
        && body(replica, sequence)[0] == 1;
    let mut within =
        (1..=8).flat_map(|replica| (1..=count(replica)).map(move |s| body(replica, s)));
    if !added {
        Knowledge::Unknown
    } else if within.any(|body| body[0] == 2 && self::node(&body) == node) {
        Knowledge::Marked
    } else {
        Knowledge::Unmarked
    }
}

/// The document's tests of an issue from 9 on, and the op.
fn issued(
    bodies: &[Body],
    tree: &Naive,
    replica: u8,
    issue: Issue,
    room: usize,
) -> Result<Body, u8> {
    let count = |replica: u8| bodies.iter().filter(|body| body[1] == replica).count();
    if count(replica) == 255 {
        return Err(9);
    }
    let added = |node: u16| tree.parents.contains_key(&node);
    let parent_known = |node: u16| node == 0 || added(node);
    let known = match issue {
        Issue::Add(parent) => parent_known(parent),
        Issue::Remove(node) => added(node),
        Issue::Move(node, parent) => added(node) && parent_known(parent) && node != parent,
    };
    if !known {
        return Err(7);
    }
    // Marked in the present tree.
    let marked = |node: u16| tree.marks.contains(&node);
    match issue {
        Issue::Add(parent) if marked(parent) => return Err(11),
        Issue::Move(node, parent) if marked(node) || marked(parent) => return Err(11),
        Issue::Move(node, parent) if tree.below(node).contains(&parent) => return Err(10),
        _ => {}
    }
    if room < 14 {
        return Err(8);
    }
    let depth = |node: u16| tree.path(node).len();
    let (kind, node, parent) = match issue {
        Issue::Add(parent) => (
            1,
            256 * u16::from(replica) + count(replica) as u16 + 1,
            parent,
        ),
        Issue::Remove(node) => (2, node, 0),
        Issue::Move(node, parent) if depth(node) > depth(parent) => (3, node, parent),
        Issue::Move(node, parent) => (4, node, parent),
    };
    let mut body = vec![kind, replica];
    body.extend(
        [node, parent]
            .iter()
            .flat_map(|number| number.to_be_bytes()),
    );
    body.extend((1..=8).map(|replica| count(replica) as u8));
    Ok(body)
}

/// One issue by the model and by the document; which number, or 0.
fn compare_issue(ops: &[Op], tree: &Naive, replica: u8, issue: Issue, room: usize) -> usize {
    let bodies: Vec<Body> = ops.iter().map(|op| op.bytes().to_vec()).collect();
    let file = file_of(ops);
    let mut buffer = in_buffer(&file, file.len() + room);
    let (answer, op) = issue_checked(&mut buffer, replica, issue);
    let expected = issued(&bodies, tree, replica, issue, room);
    match (answer, expected) {
        (Accepted(end), Ok(body)) => {
            assert_eq!((end, op), (file.len() + 14, body));
            0
        }
        (Refused(number), Err(expected)) => {
            assert_eq!(number, expected, "{issue:?} by {replica}");
            usize::from(number)
        }
        other => panic!("{issue:?} by {replica}: {other:?}"),
    }
}

#[test]
fn issuing() {
    let rng = &mut Rng::new(72);
    let mut full = adds(1, 255);
    full.extend([remove(2, 257, &[255]), remove(3, 258, &[255])]);
    let mut logs = small_logs();
    logs.extend([unremoved(), full]);
    for _ in 0..200 {
        let style = rng.pick(&[
            world::Style::mixed as fn(usize, usize) -> world::Style,
            world::Style::moves,
        ]);
        let style = style(1 + rng.below(8), rng.below(50));
        logs.push(world::World::random(rng, style).ops);
    }
    let mut seen = [0; 12];
    for ops in logs {
        let bodies: Vec<Body> = ops.iter().map(|op| op.bytes().to_vec()).collect();
        let tree = Naive::judge(&bodies);
        let mut numbers: Vec<u16> = vec![0, 0, 0, 1, 256, 511, 2304, 65535];
        for op in &ops {
            numbers.extend([op.node; 2]);
        }
        for _ in 0..150 {
            let (node, parent) = (rng.pick(&numbers), rng.pick(&numbers));
            let issue = rng.pick(&[
                Issue::Add(parent),
                Issue::Remove(node),
                Issue::Move(node, parent),
                Issue::Move(node, parent),
            ]);
            let replica = 1 + rng.below(8) as u8;
            let room = rng.pick(&[0, 13, 14, 14, 14, 20]);
            seen[compare_issue(&ops, &tree, replica, issue, room)] += 1;
        }
    }
    // Enough of each, and more than a few of those that are rare by nature.
    let enough = |number: usize, least: usize| assert!(seen[number] > least, "{seen:?}");
    [0, 7, 8, 11]
        .iter()
        .for_each(|&number| enough(number, 1000));
    enough(10, 300);
    enough(9, 5);
}

/// The document's batch: one after another, each in the tree left by those before.
/// The tests are those from 2 on, with so many bytes of output and so much room.
fn batch(
    bodies: &[Body],
    replica: u8,
    parent: u16,
    nodes: &[u16],
    output: usize,
    room: usize,
) -> Result<Vec<Body>, u8> {
    if nodes.len() > 16 || output < 14 * nodes.len() {
        return Err(2);
    }
    if !(1..=8).contains(&replica) {
        return Err(3);
    }
    let mut all = bodies.to_vec();
    for &node in nodes {
        let left = room - 14 * (all.len() - bodies.len());
        let tree = Naive::judge(&all);
        let issue = Issue::Move(node, parent);
        all.push(issued(&all, &tree, replica, issue, left)?);
    }
    Ok(all.split_off(bodies.len()))
}

/// Lists of any nodes, most of which can go under the parent.
#[test]
fn batches() {
    let rng = &mut Rng::new(73);
    let mut seen = [0; 12];
    let mut moves = 0;
    for round in 0..1200 {
        let style = [world::Style::mixed, world::Style::moves][round % 2];
        let mut style = style(1 + rng.below(8), 2 + rng.below(25));
        style.remove_one_in = 20;
        let ops = match round % 100 {
            0 => adds(3, 254),
            _ => world::World::random(rng, style).ops,
        };
        let bodies: Vec<Body> = ops.iter().map(|op| op.bytes().to_vec()).collect();
        let mut numbers: Vec<u16> = ops.iter().map(|op| op.node).collect();
        let tree = Naive::judge(&bodies);
        let some = rng.pick(&numbers);
        let parent = rng.pick(&[0, some, some, some, some, some, 9999]);
        if !rng.one_in(5) {
            let can_go = |node: &u16| *node != 0 && !tree.below(*node).contains(&parent);
            numbers.retain(|node| can_go(node) && *node != parent);
            numbers.push(rng.pick(&ops).node);
        }
        let count: usize = rng.pick(&[0, 1, 2, 3, 4, 4, 8, 16, 17]);
        let nodes: Vec<u16> = (0..count).map(|_| rng.pick(&numbers)).collect();
        let replica = rng.pick(&[0, 1, 2, 3, 3, 5, 8, 9]);
        let output = match rng.below(12) {
            0 => (14 * count).saturating_sub(1),
            1 => 14 * count + 1,
            _ => 14 * count,
        };
        let room = rng.pick(&[20, 60, 250, 250, 250]);
        let file = file_of(&ops);
        let mut buffer = in_buffer(&file, file.len() + room);
        let (answer, out) = batch_in(&mut buffer, replica, parent, &nodes, output);
        match (
            answer,
            batch(&bodies, replica, parent, &nodes, output, room),
        ) {
            (Accepted(end), Ok(issued)) => {
                assert_eq!(end, file.len() + 14 * count);
                assert_eq!(out[..14 * count], issued.concat());
                seen[0] += 1;
                moves += count;
            }
            (Refused(number), Err(expected)) => {
                assert_eq!(number, expected);
                seen[usize::from(number)] += 1;
            }
            other => panic!("{other:?}"),
        }
    }
    for number in [0, 2, 3, 7, 8, 10, 11] {
        assert!(seen[number] > 20, "{seen:?}");
    }
    assert!(moves > 500 && seen[9] > 0, "{moves} {seen:?}");
}

/// Vectors of ops, joins of them, and any counts up to what is held.
#[test]
fn three_outcomes() {
    let mut seen = [0; 3];
    for seed in 0..150 {
        let rng = &mut Rng::new(1100 + seed);
        let style = world::Style::mixed(1 + rng.below(8), 5 + rng.below(60));
        let ops = world::World::random(rng, style).ops;
        let log = log_of(&ops);
        let held = log.held();
        let body = |replica: usize, sequence: usize| {
            let op = log
                .get(replica - 1, sequence)
                .expect("an op within a vector");
            op.bytes().to_vec()
        };
        for _ in 0..40 {
            let vector = match rng.below(4) {
                0 => held,
                1 => rng.pick(&ops).vector,
                2 => op::join(&rng.pick(&ops).vector, &rng.pick(&ops).vector),
                _ => held.map(|count| rng.below(usize::from(count) + 1) as u8),
            };
            for node in ops.iter().map(|op| op.node).chain([0, 1, 256, 2304]) {
                let expected = knowledge(&vector, node, &body);
                assert_eq!(log.knowledge(&vector, node), expected);
                seen[expected as usize] += 1;
            }
        }
    }
    assert!(seen.iter().all(|&count| count > 10_000), "{seen:?}");
}

/// Soundness as the document puts it, number by number.
fn is_sound(file: &[u8]) -> bool {
    let number = |at: usize| usize::from(file[at]) * 256 + usize::from(file[at + 1]);
    if file.len() < 32 {
        return false;
    }
    let counts: Vec<usize> = (0..8).map(|i| number(4 * i)).collect();
    let start = |i: usize| 32 + 14 * counts[..i].iter().sum::<usize>();
    if counts.iter().any(|&count| count > 255)
        || (0..8).any(|i| number(4 * i + 2) != start(i))
        || start(8) > file.len()
    {
        return false;
    }
    let body = |replica: usize, sequence: usize| {
        let at = start(replica - 1) + 14 * (sequence - 1);
        file[at..at + 14].to_vec()
    };
    (1..=8).all(|replica| {
        (1..=counts[replica - 1]).all(|sequence| {
            let this = body(replica, sequence);
            usize::from(this[1]) == replica
                && usize::from(this[5 + replica]) + 1 == sequence
                && passes(&this, &counts, &body)
        })
    })
}

/// Tests 3, 5, 6 and 7.
fn passes(this: &Body, counts: &[usize], body: &dyn Fn(usize, usize) -> Body) -> bool {
    fault(this, counts, body) == 0
}

/// The first of the numbers 3, 5, 6 and 7 that a body deserves, or 0. Its replica
/// and own count are right.
fn fault(this: &Body, counts: &[usize], body: &dyn Fn(usize, usize) -> Body) -> u8 {
    let count = |replica: usize| usize::from(this[5 + replica]);
    let form = matches!(this[0], 1..=4) && (this[0] != 2 || parent(this) == 0);
    if !form {
        return 3;
    }
    if (1..=8).any(|replica| count(replica) > counts[replica - 1]) {
        return 5;
    }
    let closed = (1..=8).all(|replica| {
        count(replica) == 0 || {
            let last = body(replica, count(replica));
            (6..14).all(|at| last[at] <= this[at])
        }
    });
    if !closed {
        return 6;
    }
    let known = |node: u16| knowledge(&this[6..], node, body) != Knowledge::Unknown;
    let parent_known = parent(this) == 0 || known(parent(this));
    let (replica, sequence) = own(this);
    let names = match this[0] {
        1 => parent_known && usize::from(node(this)) == 256 * replica + sequence,
        2 => known(node(this)),
        _ => known(node(this)) && parent_known && node(this) != parent(this),
    };
    if names {
        0
    } else {
        7
    }
}

#[test]
fn soundness() {
    let rng = &mut Rng::new(71);
    let mut sound = 0;
    for ops in small_logs() {
        let file = file_of(&ops);
        for damaged in damage::changed(&file).chain(damage::cut(&file)) {
            assert_eq!(Log::open(&damaged).is_some(), is_sound(&damaged));
            sound += usize::from(is_sound(&damaged));
        }
    }
    for _ in 0..300 {
        let style = world::Style::mixed(3, 20);
        let file = file_of(&world::World::random(rng, style).ops);
        assert!(is_sound(&file));
        for _ in 0..30 {
            let mut damaged = damage::random(rng, &file);
            if rng.one_in(2) {
                damaged = damage::random(rng, &damaged);
            }
            assert_eq!(Log::open(&damaged).is_some(), is_sound(&damaged));
            sound += usize::from(is_sound(&damaged));
        }
    }
    assert!(sound > 300, "{sound}");
}

/// In the place of a number: the same bytes are held.
const HELD: u8 = 100;

fn number_at(bytes: &[u8], at: usize) -> usize {
    usize::from(bytes[at]) * 256 + usize::from(bytes[at + 1])
}

fn set_number(bytes: &mut [u8], at: usize, number: usize) {
    bytes[at] = (number / 256) as u8;
    bytes[at + 1] = (number % 256) as u8;
}

/// What a plain delivery at a sound file comes to, from test 2 on; 0 if it is
/// accepted.
fn tested(buffer: &[u8], record: &[u8]) -> u8 {
    if record.len() != 14 {
        return 2;
    }
    let replica = usize::from(record[1]);
    if !(1..=8).contains(&replica) || record[5 + replica] == 255 {
        return 3;
    }
    let counts: Vec<usize> = (0..8).map(|i| number_at(buffer, 4 * i)).collect();
    let body = |replica: usize, sequence: usize| {
        let at = number_at(buffer, 4 * replica - 2) + 14 * (sequence - 1);
        buffer[at..at + 14].to_vec()
    };
    let this = record.to_vec();
    let (_, sequence) = own(&this);
    match fault(&this, &counts, &body) {
        3 => 3,
        _ if sequence <= counts[replica - 1] => {
            if body(replica, sequence) == this {
                HELD
            } else {
                4
            }
        }
        0 if buffer.len() < 32 + 14 * (counts.iter().sum::<usize>() + 1) => 8,
        number => number,
    }
}

/// Puts a record that passed in its place, byte by byte.
fn insert(buffer: &mut [u8], record: &[u8]) {
    let entry = 4 * (usize::from(record[1]) - 1);
    let count = number_at(buffer, entry);
    let place = number_at(buffer, entry + 2) + 14 * count;
    let end = 32 + 14 * (0..8).map(|i| number_at(buffer, 4 * i)).sum::<usize>();
    for at in (place..end).rev() {
        buffer[at + 14] = buffer[at];
    }
    buffer[place..place + 14].copy_from_slice(record);
    set_number(buffer, entry, count + 1);
    for later in (entry + 4..32).step_by(4) {
        let start = number_at(buffer, later + 2);
        set_number(buffer, later + 2, start + 14);
    }
}

/// Delivery with a holdback, in place on the lent bytes.
fn deliver_in_place(buffer: &mut [u8], record: &[u8], holdback: &mut [u8]) -> Answer {
    if !is_sound(buffer) {
        return Refused(1);
    }
    if holdback.len() != 449 || holdback[0] > 32 {
        return Refused(14);
    }
    let past = 1 + 14 * usize::from(holdback[0]);
    if (past..449).any(|at| holdback[at] != 0) {
        return Refused(14);
    }
    match tested(buffer, record) {
        0 => insert(buffer, record),
        HELD => return HadIt,
        5 if (1..past)
            .step_by(14)
            .any(|at| holdback[at..at + 14] == *record) =>
        {
            return Waiting
        }
        5 if past == 449 => return Refused(13),
        5 => {
            holdback[past..past + 14].copy_from_slice(record);
            holdback[0] += 1;
            return Waiting;
        }
        number => return Refused(number),
    }
    let mut at = 1;
    while at < 1 + 14 * usize::from(holdback[0]) {
        let number = tested(buffer, &holdback[at..at + 14]);
        if number == 5 || number == 8 {
            at += 14;
            continue;
        }
        if number == 0 {
            insert(buffer, &holdback[at..at + 14]);
        }
        holdback.copy_within(at + 14.., at);
        holdback[435..].fill(0);
        holdback[0] -= 1;
        if number == 0 {
            at = 1;
        }
    }
    Accepted(32 + 14 * (0..8).map(|i| number_at(buffer, 4 * i)).sum::<usize>())
}

/// A part of a world, damaged at times, with any holdback and any record.
#[test]
fn holdbacks() {
    let mut seen = [0; 15];
    let [mut had_it, mut waiting, mut accepted] = [0; 3];
    // Calls that accepted more than one.
    let mut several = 0;
    for seed in 0..12_000 {
        let rng = &mut Rng::new(50_000 + seed);
        let style = rng.pick(&[
            world::Style::mixed as fn(usize, usize) -> world::Style,
            world::Style::moves,
        ]);
        let style = style(1 + rng.below(8), 1 + rng.below(60));
        let ops = world::World::random(rng, style).ops;
        let share = rng.below(ops.len() + 1);
        let held = world::part(rng, &ops[..share], 40);
        let counts = log_of(&held).held();
        let mut file = file_of(&held);
        if rng.one_in(20) {
            file = damage::random(rng, &file);
        }
        let room = rng.pick(&[0, 13, 14, 60, 200, 900, 900, 900]);
        let mut buffer = in_buffer(&file, file.len() + room);
        let mut holdback = world::holdback(rng, &ops, &counts);
        if rng.one_in(20) {
            holdback = damage::holdback(rng, &holdback);
        }
        // Each call is lent what the last one left.
        for _ in 0..4 {
            let next = ops.iter().find(|op| {
                let held = number_at(&buffer, 4 * op.index());
                op.sequence() > held
            });
            let op = match next {
                Some(op) if rng.one_in(2) => *op,
                _ => rng.pick(&ops),
            };
            let mut record = op.bytes().to_vec();
            if rng.one_in(5) {
                record = damage::record(rng, &record);
            }
            let (mut buffer_2, mut holdback_2) = (buffer.clone(), holdback.clone());
            let before = bodies_if_sound(&buffer);
            let answer = deliver_holdback(&mut buffer, &record, &mut holdback);
            let expected = deliver_in_place(&mut buffer_2, &record, &mut holdback_2);
            assert_eq!(answer, expected);
            assert_eq!((&buffer, &holdback), (&buffer_2, &holdback_2));
            match answer {
                Accepted(end) => {
                    accepted += 1;
                    several += usize::from(end > 32 + 14 * (before + 1));
                }
                HadIt => had_it += 1,
                Waiting => waiting += 1,
                Refused(number) => seen[usize::from(number)] += 1,
                other => panic!("{other:?}"),
            }
        }
    }
    for number in [1, 2, 3, 4, 6, 7, 8, 13, 14] {
        assert!(seen[number] > 100, "{seen:?}");
    }
    assert_eq!(seen[5], 0);
    assert!(had_it > 1000 && waiting > 1000, "{had_it} {waiting}");
    assert!(accepted > 5000 && several > 2000, "{accepted} {several}");
}

/// How many records a sound file has.
fn bodies_if_sound(buffer: &[u8]) -> usize {
    match file_end(buffer) {
        Count(end) => (end - 32) / 14,
        _ => 0,
    }
}
