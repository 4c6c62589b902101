//! The tidy-up: upward moves that different replicas issue from one very log. The
//! promise in every small outline and in many large ones, what else holds there, and
//! for each condition of the promise what happens without it.

mod common;

use common::*;
use outline_model::cases::examples::*;
use outline_model::cases::world::{Deep, Style, World};
use outline_model::rng::Rng;
use outline_model::*;
use std::collections::{BTreeMap, BTreeSet};

const UPWARD: u8 = 3;
const DOWNWARD: u8 = 4;

/// The 14 bytes of an op.
type Body = Vec<u8>;

fn node_of(body: &[u8]) -> u16 {
    u16::from_be_bytes([body[2], body[3]])
}

fn parent_of(body: &[u8]) -> u16 {
    u16::from_be_bytes([body[4], body[5]])
}

fn slot(body: &[u8]) -> usize {
    let replica = usize::from(body[1]);
    255 * (replica - 1) + usize::from(body[5 + replica]) + 1
}

fn file_with(file: &[u8], more: &[Body]) -> Vec<u8> {
    layout(&[bodies(file), more.to_vec()].concat())
}

/// Issues from the very log of this file; the op, if it is accepted.
fn issued(file: &[u8], replica: u8, issue: Issue) -> Option<Body> {
    let mut buffer = in_buffer(file, file.len() + 14);
    let (answer, body) = issue_checked(&mut buffer, replica, issue);
    (answer == Accepted(file.len() + 14)).then_some(body)
}

fn added_nodes(file: &[u8]) -> Vec<u16> {
    let bodies = bodies(file);
    let adds = bodies.iter().filter(|body| body[0] == 1);
    adds.map(|body| node_of(body)).collect()
}

/// Every move that this replica can issue from the log.
fn moves_from(file: &[u8], replica: u8) -> Vec<Body> {
    let nodes = added_nodes(file);
    let mut moves = vec![];
    for &node in &nodes {
        for parent in [&[0][..], &nodes].concat() {
            moves.extend(issued(file, replica, Issue::Move(node, parent)));
        }
    }
    moves
}

/// Those of them that are upward as written by the call.
fn upward_from(file: &[u8], replica: u8) -> Vec<Body> {
    let mut moves = moves_from(file, replica);
    moves.retain(|body| body[0] == UPWARD);
    moves
}

/// Every op that this replica can issue from the log.
fn ops_from(file: &[u8], replica: u8) -> Vec<Body> {
    let nodes = added_nodes(file);
    let parents = [&[0][..], &nodes].concat();
    let adds = parents.into_iter().map(Issue::Add);
    let removes = nodes.into_iter().map(Issue::Remove);
    let mut ops: Vec<Body> = adds
        .chain(removes)
        .filter_map(|issue| issued(file, replica, issue))
        .collect();
    ops.extend(moves_from(file, replica));
    ops
}

// ---- the promise

/// Whether none of these ops has outcome 3.
fn none_below(moves: &[Body], outcomes: &[u8]) -> bool {
    moves.iter().all(|body| outcomes[slot(body)] != 3)
}

/// Whether of those that move the same node exactly one has outcome 1.
fn one_of_each(moves: &[Body], outcomes: &[u8]) -> bool {
    moves.iter().all(|body| {
        let same = |other: &&Body| node_of(other) == node_of(body);
        let of_node = moves.iter().filter(same);
        of_node.filter(|body| outcomes[slot(body)] == 1).count() == 1
    })
}

fn is_kept(file: &[u8], moves: &[Body]) -> bool {
    let outcomes = judged(file).1;
    none_below(moves, &outcomes) && one_of_each(moves, &outcomes)
}

/// The promise, and more than it says: the move of the highest replica is the one
/// applied, its rivals have outcome 2, the tree is the old one with the applied moves,
/// and no op of the log has another outcome than before.
fn check(before: &(Vec<u16>, Vec<u8>), file: &[u8], moves: &[Body]) {
    let (parents, outcomes) = judged(file);
    assert!(none_below(moves, &outcomes), "{moves:?}");
    assert!(one_of_each(moves, &outcomes), "{moves:?}");
    let (mut tree, mut expected) = before.clone();
    for body in moves {
        let rivals = moves.iter().filter(|other| node_of(other) == node_of(body));
        let is_highest = rivals.map(|other| other[1]).max() == Some(body[1]);
        expected[slot(body)] = if is_highest { 1 } else { 2 };
        if is_highest {
            tree[slot_of(node_of(body))] = parent_of(body);
        }
    }
    assert!(outcomes == expected, "{moves:?}");
    assert!(parents == tree, "{moves:?}");
}

// ---- small outlines

/// Every tree of so many nodes, by the place of each node's parent: 0 is the root.
fn shapes(nodes: usize) -> Vec<Vec<usize>> {
    let mut shapes = vec![vec![]];
    for place in 0..nodes {
        let longer = |shape: &Vec<usize>| {
            let shape = shape.clone();
            (0..=place).map(move |parent| [&shape[..], &[parent]].concat())
        };
        shapes = shapes.iter().flat_map(longer).collect();
    }
    shapes
}

/// The tree added by one replica.
fn by_one(shape: &[usize], replica: u8) -> Vec<Op> {
    let mut ops = adds(replica, shape.len());
    for (place, &parent) in shape.iter().enumerate() {
        ops[place].parent = parent.checked_sub(1).map_or(0, |at| ops[at].node);
    }
    ops
}

/// The tree added by replicas in turn, from the highest on, each of which has met no
/// more than the nodes above its own.
fn by_many(shape: &[usize]) -> Vec<Op> {
    let mut ops: Vec<Op> = vec![];
    for (place, &parent) in shape.iter().enumerate() {
        let replica = 8 - place as u8;
        let above = parent.checked_sub(1).map(|at| ops[at]);
        let mut counts = above.map_or([0; 8], |op| op.vector);
        if let Some(op) = above {
            counts[op.index()] = 1;
        }
        let parent = above.map_or(0, |op| op.node);
        ops.push(add(replica, parent, &counts));
    }
    ops
}

/// Each choice of at most one move for each replica.
fn choices(own: &[Vec<Body>]) -> impl Iterator<Item = Vec<Body>> + '_ {
    let all: usize = own.iter().map(|moves| moves.len() + 1).product();
    (0..all).map(move |mut number| {
        let mut choice = vec![];
        for moves in own {
            let place = number % (moves.len() + 1);
            number /= moves.len() + 1;
            choice.extend(place.checked_sub(1).map(|at| moves[at].clone()));
        }
        choice
    })
}

/// Every tidy-up of these replicas from one log. Whichever op comes last, the buffer is
/// that of all: so it is after every order of arrival, since this holds for each part
/// of them too. A copy of any changes nothing.
fn every_tidy_up(ops: &[Op], replicas: &[u8]) -> usize {
    let file = file_of(ops);
    let before = judged(&file);
    let own: Vec<Vec<Body>> = replicas.iter().map(|&r| upward_from(&file, r)).collect();
    let mut count = 0;
    for moves in choices(&own) {
        let mut whole = in_buffer(&file_with(&file, &moves), file.len() + 14 * 4);
        let end = file.len() + 14 * moves.len();
        for (last, body) in moves.iter().enumerate() {
            let mut others = moves.clone();
            others.remove(last);
            let mut buffer = in_buffer(&file_with(&file, &others), file.len() + 14 * 4);
            assert_eq!(deliver(&mut buffer, body), Accepted(end));
            assert_eq!(buffer, whole);
            assert_eq!(deliver(&mut buffer, body), HadIt);
            assert_eq!(deliver(&mut whole, body), HadIt);
            assert_eq!(buffer, whole);
        }
        check(&before, &whole, &moves);
        count += 1;
    }
    count
}

#[test]
fn every_small_outline() {
    let mut count = 0;
    for nodes in 1..=4 {
        for shape in shapes(nodes) {
            for ops in [by_one(&shape, 3), by_many(&shape)] {
                count += every_tidy_up(&ops, &[1, 3, 6, 8]);
            }
        }
    }
    assert!(count > 200_000, "{count}");
}

#[test]
fn every_outline_of_five_nodes() {
    let mut count = 0;
    for shape in shapes(5) {
        count += every_tidy_up(&by_one(&shape, 2), &[2, 4]);
        count += every_tidy_up(&by_many(&shape), &[1, 5, 8]);
    }
    assert!(count > 100_000, "{count}");
}

/// Every order of these.
fn permutations(moves: &[Body]) -> Vec<Vec<Body>> {
    if moves.is_empty() {
        return vec![vec![]];
    }
    let mut all = vec![];
    for (place, first) in moves.iter().enumerate() {
        let mut rest = moves.to_vec();
        rest.remove(place);
        let behind = permutations(&rest).into_iter();
        all.extend(behind.map(|order| [&[first.clone()][..], &order].concat()));
    }
    all
}

/// The plain words of the promise: each replica issues in its own buffer, and what it
/// lacks comes there in every order, with copies of all that came before, its own too.
/// A buffer whose replica issued nothing gets all. In the end all buffers are alike.
#[test]
fn every_order_in_every_buffer() {
    let mut orders = 0;
    for shape in (1..=3).flat_map(shapes) {
        let file = file_of(&by_one(&shape, 4));
        let before = judged(&file);
        let own: Vec<Vec<Body>> = [2, 4, 7].map(|r| upward_from(&file, r)).to_vec();
        for moves in choices(&own).filter(|moves| moves.len() > 1) {
            let whole = in_buffer(&file_with(&file, &moves), file.len() + 14 * 3);
            for order in permutations(&moves) {
                let mut bystander = in_buffer(&file, file.len() + 14 * 3);
                // The first of them may have been issued here.
                let mut its_own = bystander.clone();
                let (node, parent) = (node_of(&order[0]), parent_of(&order[0]));
                let (_, body) = issue_checked(&mut its_own, order[0][1], Issue::Move(node, parent));
                assert_eq!(body, order[0]);
                for (last, body) in order.iter().enumerate() {
                    let end = file.len() + 14 * (last + 1);
                    assert_eq!(deliver(&mut bystander, body), Accepted(end));
                    if last > 0 {
                        assert_eq!(deliver(&mut its_own, body), Accepted(end));
                    }
                    for copy in &order[..=last] {
                        assert_eq!(deliver(&mut bystander, copy), HadIt);
                        assert_eq!(deliver(&mut its_own, copy), HadIt);
                    }
                    // Already on the way the promise is kept.
                    check(&before, &bystander, &order[..=last]);
                }
                assert_eq!(bystander, whole);
                assert_eq!(its_own, whole);
                orders += 1;
            }
        }
    }
    assert!(orders > 5_000, "{orders}");
}

/// Until the move of a higher replica comes, that of a lower one is applied.
#[test]
fn which_one_is_applied_can_change_on_the_way() {
    // 257 > 258 > 259.
    let file = file_of(&by_one(&[0, 1, 2], 1));
    let moves = [
        up(2, 259, 0, &[3]),
        up(5, 259, 257, &[3]),
        up(8, 259, 258, &[3]),
    ];
    let mut buffer = in_buffer(&file, file.len() + 14 * 3);
    for (count, expected) in [(1, [1, 0, 0]), (2, [2, 1, 0]), (3, [2, 2, 1])] {
        deliver_checked(&mut buffer, &moves[count - 1].bytes());
        let outcomes = judged(&buffer).1;
        assert_eq!(moves.map(|op| outcomes[slot(&op.bytes())]), expected);
    }
}

/// A node under the root is deeper than the root, and one is deeper than its own
/// parent: to leave it where it hangs is an upward move like any other.
#[test]
fn a_move_to_where_the_node_hangs_is_upward() {
    let file = file_of(&by_one(&[0, 1], 1));
    let stays = up(3, 258, 257, &[2]).bytes().to_vec();
    let goes = up(2, 258, 0, &[2]).bytes().to_vec();
    assert!(upward_from(&file, 3).contains(&stays) && upward_from(&file, 2).contains(&goes));
    let both = file_with(&file, &[stays, goes]);
    check(&judged(&file), &both, &bodies(&both)[2..]);
    assert_eq!(judged(&both).0[..3], [0, 0, 257]);
}

// ---- large logs

/// Random ops, also with clashing and passed-over moves and removes.
fn large_log(rng: &mut Rng) -> Vec<Op> {
    let replicas = 2 + rng.below(7);
    match rng.below(3) {
        0 => {
            let chains = 1 + rng.below(3);
            let deep = Deep {
                chains,
                length: (30 + rng.below(160)) / chains,
                moves: rng.below(120),
            };
            World::deep(rng, deep).ops
        }
        1 => {
            let count = 20 + rng.below(300);
            World::random(rng, Style::moves(replicas, count)).ops
        }
        _ => {
            let count = 20 + rng.below(300);
            World::random(rng, Style::mixed(replicas, count)).ops
        }
    }
}

/// Two to eight replicas each issue an upward move from the log; many choose one of a
/// few nodes. A replica that draws no upward move, or can issue none, has none.
fn some_moves(rng: &mut Rng, file: &[u8]) -> Vec<Body> {
    let log = Log::open(file).expect("a sound log");
    let tree = Tree::judge(&log);
    let held = log.held();
    let unmarked = |&node: &u16| log.knowledge(&held, node) == Knowledge::Unmarked;
    let nodes: Vec<u16> = tree.nodes().filter(unmarked).collect();
    let few = [(); 2].map(|()| rng.pick(&nodes));
    let mut replicas: Vec<u8> = (1..=8).collect();
    rng.shuffle(&mut replicas);
    replicas.truncate(2 + rng.below(7));
    let mut moves = vec![];
    for replica in replicas {
        let node = if rng.one_in(2) {
            rng.pick(&few)
        } else {
            rng.pick(&nodes)
        };
        let less_deep = |&parent: &u16| tree.depth(parent) < tree.depth(node);
        let parents: Vec<u16> = nodes.iter().copied().filter(less_deep).collect();
        let parent = if parents.is_empty() || rng.one_in(8) {
            0
        } else {
            rng.pick(&parents)
        };
        let body = issued(file, replica, Issue::Move(node, parent));
        // The depths above are a hint alone: what counts is the kind that is written.
        moves.extend(body.filter(|body| body[0] == UPWARD));
    }
    moves
}

/// All of them in some order, with copies here and there.
fn with_copies(rng: &mut Rng, moves: &[Body]) -> Vec<Body> {
    let mut order = moves.to_vec();
    for _ in 0..rng.below(4) {
        order.extend(moves.get(rng.below(moves.len())).cloned());
    }
    rng.shuffle(&mut order);
    order
}

#[test]
fn large_logs() {
    let (mut movers, mut rivals) = ([0; 9], [0; 9]);
    let mut lost_before = 0;
    for seed in 0..150 {
        let rng = &mut Rng::new(120_000 + seed);
        let file = file_of(&large_log(rng));
        let before = judged(&file);
        lost_before += before.1.iter().filter(|&&outcome| outcome > 1).count();
        let moves = some_moves(rng, &file);
        let length = file.len() + 14 * moves.len() + rng.below(20);
        let whole = in_buffer(&file_with(&file, &moves), length);
        // The buffer of each replica that moves, and one of a bystander.
        for own in moves.iter().map(Some).chain([None]) {
            let mut buffer = in_buffer(&file, length);
            if let Some(own) = own {
                let issue = Issue::Move(node_of(own), parent_of(own));
                issue_checked(&mut buffer, own[1], issue);
            }
            for body in with_copies(rng, &moves) {
                let held = bodies(&buffer).contains(&body);
                let answer = deliver(&mut buffer, &body);
                assert_eq!(answer == HadIt, held);
                assert!(held || matches!(answer, Accepted(_)));
            }
            assert_eq!(buffer, whole);
        }
        check(&before, &whole, &moves);
        movers[moves.len()] += 1;
        for body in &moves {
            let same = moves.iter().filter(|other| node_of(other) == node_of(body));
            rivals[same.count()] += 1;
        }
    }
    assert!(movers[2..].iter().all(|&count| count > 5), "{movers:?}");
    assert!(rivals[1..=4].iter().all(|&count| count > 20), "{rivals:?}");
    assert!(lost_before > 1_000, "{lost_before}");
}

/// In bundles, and with a holdback where the moves come before the log itself: the
/// buffer is the same.
#[test]
fn other_ways_of_arrival() {
    for seed in 0..60 {
        let rng = &mut Rng::new(121_000 + seed);
        let ops = large_log(rng);
        let file = file_of(&ops);
        let held = log_of(&ops).held();
        let moves = some_moves(rng, &file);
        let length = file.len() + 14 * moves.len();
        let whole = file_with(&file, &moves);
        // Bundles of a few moves, one of which has none.
        let mut buffer = in_buffer(&file, length);
        let mut order = moves.clone();
        rng.shuffle(&mut order);
        let part = rng.below(order.len() + 1);
        for some in [&order[..part], &[], &order[part / 2..]] {
            let theirs = file_with(&file, some);
            open_checked(&mut buffer, &bundle_checked(&theirs, held));
            check(&judged(&file), &buffer, &bodies_beyond(&buffer, &held));
        }
        assert_eq!(buffer, whole);
        // The last ops of the log lack: the moves count them, and wait.
        let lacking = rng.below(8);
        let mut buffer = in_buffer(&file_of(&ops[..ops.len() - lacking]), length);
        let mut holdback = holdback_from(&[]);
        for body in &order {
            let answer = holdback_checked(&mut buffer, body, &mut holdback);
            assert_eq!(answer == Waiting, lacking > 0);
        }
        for op in &ops[ops.len() - lacking..] {
            holdback_checked(&mut buffer, &op.bytes(), &mut holdback);
        }
        assert_eq!(buffer, whole);
        assert_eq!(holdback[0], 0);
    }
}

/// The ops beyond these counts.
fn bodies_beyond(file: &[u8], held: &Vector) -> Vec<Body> {
    let mut bodies = bodies(file);
    bodies.retain(|body| body[5 + usize::from(body[1])] >= held[usize::from(body[1]) - 1]);
    bodies
}

/// With a true page a delivered move takes back those of the lower replicas, and no
/// other op: of equal timestamp and kind the higher replica comes first.
#[test]
fn only_moves_of_lower_replicas_are_taken_back() {
    for seed in 0..40 {
        let rng = &mut Rng::new(122_000 + seed);
        let file = file_of(&large_log(rng));
        let mut moves = some_moves(rng, &file);
        rng.shuffle(&mut moves);
        let mut buffer = in_buffer(&file, file.len() + 14 * moves.len());
        let mut page = fresh_page(&buffer);
        for (place, body) in moves.iter().enumerate() {
            let call = PageCall::Deliver(body.clone());
            let paged = page_checked(&mut buffer, &call, &mut page);
            let lower = moves[..place].iter().filter(|other| other[1] < body[1]);
            assert_eq!(paged.taken, lower.count());
        }
    }
}

// ---- downward moves

/// The file with these moves, each of which the call issued from the file's very log.
fn after(file: &[u8], moves: &[Op]) -> Vec<u8> {
    let moves: Vec<Body> = moves.iter().map(|op| op.bytes().to_vec()).collect();
    for body in &moves {
        let issue = Issue::Move(node_of(body), parent_of(body));
        assert_eq!(issued(file, body[1], issue).as_ref(), Some(body));
    }
    file_with(file, &moves)
}

fn outcomes_of(file: &[u8], moves: &[Op]) -> Vec<u8> {
    let outcomes = judged(file).1;
    let of_op = |op: &Op| outcomes[slot(&op.bytes())];
    moves.iter().map(of_op).collect()
}

/// Moves of both kinds, issued from one very log by two replicas. With one node the
/// promise is kept; with two it fails for siblings that go under each other, which is
/// P1, and with three it fails for one of each kind. The upward ones among them keep it
/// always: at their timestamp they are judged first.
#[test]
fn downward_moves_take_it_away() {
    let mut lost = BTreeMap::new();
    for shape in (1..=4).flat_map(shapes) {
        let file = file_of(&by_one(&shape, 4));
        let own = [moves_from(&file, 1), moves_from(&file, 6)];
        for moves in choices(&own) {
            let whole = file_with(&file, &moves);
            let mut upward = moves.clone();
            upward.retain(|body| body[0] == UPWARD);
            assert!(is_kept(&whole, &upward));
            if !is_kept(&whole, &moves) {
                let kinds: Vec<u8> = moves.iter().map(|body| body[0]).collect();
                *lost.entry((shape.len(), kinds)).or_insert(0) += 1;
            }
        }
    }
    let [one_up, up_last, down_both] = [vec![3, 4], vec![4, 3], vec![4, 4]];
    let expected = [
        ((2, down_both.clone()), 2),
        ((3, one_up.clone()), 3),
        ((3, up_last.clone()), 3),
        ((3, down_both.clone()), 20),
        ((4, one_up), 41),
        ((4, up_last), 41),
        ((4, down_both), 190),
    ];
    assert_eq!(lost, BTreeMap::from(expected));
}

#[test]
fn smallest_logs_with_downward_moves() {
    let siblings = file_of(&adds(4, 2));
    let counts = &[0, 0, 0, 2];
    let [a, b] = [1025, 1026];
    let moves = [down(1, a, b, counts), down(6, b, a, counts)];
    assert_eq!(outcomes_of(&after(&siblings, &moves), &moves), [3, 1]);
    // None of those that move a is applied.
    let moves = [
        down(1, a, b, counts),
        down(2, a, b, counts),
        down(6, b, a, counts),
    ];
    assert_eq!(outcomes_of(&after(&siblings, &moves), &moves), [3, 3, 1]);
    // a > b, and c: b upward under c, and c downward under b.
    let file = file_of(&by_one(&[0, 1, 0], 4));
    let c = 1027;
    let moves = [up(1, b, c, &[0, 0, 0, 3]), down(6, c, b, &[0, 0, 0, 3])];
    assert_eq!(outcomes_of(&after(&file, &moves), &moves), [1, 3]);
}

// ---- one further op

/// Logs that replica 4 wrote alone: each tree of so many nodes, and then so many moves.
fn logs(nodes: usize, moves: usize) -> Vec<Vec<u8>> {
    let trees = shapes(nodes).into_iter();
    let mut logs: Vec<Vec<u8>> = trees.map(|shape| file_of(&by_one(&shape, 4))).collect();
    for _ in 0..moves {
        let longer = |log: &Vec<u8>| {
            let log = log.clone();
            let moves = moves_from(&log, 4).into_iter();
            moves.map(move |body| file_with(&log, &[body]))
        };
        logs = logs.iter().flat_map(longer).collect();
    }
    logs
}

/// One more op, of any kind, by a replica that has met the first ops of the log or all
/// of them. No add and no remove takes the promise away, and no op of a replica that
/// has met the whole log does: its op is judged after the upward moves, or is one of
/// them. A move of a replica that lacks a part of the log can.
#[test]
fn one_further_op() {
    let mut tried: BTreeMap<(u8, bool), usize> = BTreeMap::new();
    let mut lost: BTreeMap<(u8, usize, usize), usize> = BTreeMap::new();
    let sizes = [
        (1, 0),
        (1, 1),
        (1, 2),
        (2, 0),
        (2, 1),
        (2, 2),
        (3, 0),
        (3, 1),
        (4, 0),
    ];
    for (nodes, moves) in sizes {
        for file in logs(nodes, moves) {
            let all = bodies(&file);
            let tidy = upward_from(&file, 5);
            for met in 0..=all.len() {
                let part = layout(&all[..met]);
                for further in [1, 8].into_iter().flat_map(|r| ops_from(&part, r)) {
                    let met_all = met == all.len();
                    for one in &tidy {
                        let both = [one.clone(), further.clone()];
                        let whole = file_with(&file, &both);
                        assert!(is_sound(&whole));
                        *tried.entry((further[0], met_all)).or_default() += 1;
                        let is_tidy = met_all && further[0] == UPWARD;
                        if !is_kept(&whole, if is_tidy { &both } else { &both[..1] }) {
                            assert!(!met_all);
                            *lost.entry((further[0], nodes, moves)).or_default() += 1;
                        }
                    }
                }
            }
        }
    }
    let expected = [
        ((UPWARD, 2, 2), 1),
        ((UPWARD, 3, 1), 7),
        ((DOWNWARD, 2, 1), 2),
        ((DOWNWARD, 2, 2), 12),
        ((DOWNWARD, 3, 1), 74),
        ((DOWNWARD, 4, 0), 24),
    ];
    assert_eq!(lost, BTreeMap::from(expected));
    assert!(
        tried.len() == 8 && tried.values().all(|&count| count > 3_000),
        "{tried:?}"
    );
}

/// The smallest logs found there, of two nodes.
#[test]
fn smallest_logs_with_one_further_op() {
    let [a, b] = [1025, 1026];
    let counts = &[0, 0, 0, 2];
    // Siblings, and a went under b. One who has not met this puts b under a first.
    let mut ops = adds(4, 2);
    let part = file_of(&ops);
    ops.push(down(4, a, b, counts));
    let file = file_of(&ops);
    let tidy = up(5, a, b, &[0, 0, 0, 3]);
    let further = down(8, b, a, counts);
    assert_eq!(after(&part, &[further]).len(), part.len() + 14);
    let whole = file_with(&after(&file, &[tidy]), &[further.bytes().to_vec()]);
    assert_eq!(outcomes_of(&whole, &[ops[2], further, tidy]), [3, 1, 3]);
    // a > b, then b went to the root and a under b. One who has met neither leaves b
    // where it was, upward: this comes before its rival.
    let mut ops = by_one(&[0, 1], 4);
    let part = file_of(&ops);
    ops.push(up(4, b, 0, counts));
    ops.push(down(4, a, b, &[0, 0, 0, 3]));
    let file = file_of(&ops);
    let tidy = up(5, a, b, &[0, 0, 0, 4]);
    let further = up(8, b, a, counts);
    assert_eq!(after(&part, &[further]).len(), part.len() + 14);
    let whole = file_with(&after(&file, &[tidy]), &[further.bytes().to_vec()]);
    assert_eq!(
        outcomes_of(&whole, &[ops[2], ops[3], further, tidy]),
        [2, 3, 1, 3]
    );
    // Two nodes of replicas that have not met. One who has the first alone moves it at
    // the timestamp of the tidy-up: of this one's moves none is applied.
    let ops = [add(1, 0, &[]), add(2, 0, &[])];
    let file = file_of(&ops);
    let tidy = [up(3, 257, 0, &[1, 1]), up(4, 257, 0, &[1, 1])];
    let further = up(8, 257, 0, &[1]);
    assert_eq!(after(&file_of(&ops[..1]), &[further]).len(), 60);
    let whole = file_with(&after(&file, &tidy), &[further.bytes().to_vec()]);
    assert_eq!(outcomes_of(&whole, &[tidy[0], tidy[1], further]), [2, 2, 1]);
}

/// P11: the second moves are upward, since each replica has met its own first move
/// alone. Whoever has met both of these issues none of the second as an upward move.
#[test]
fn p11_is_no_tidy_up() {
    let ops = p11();
    let second = [ops[4], ops[6]];
    assert!(second.iter().all(|op| op.kind == Kind::Up));
    assert_eq!(outcomes_of(&file_of(&ops), &second), [3, 1]);
    let from: Vec<Vec<u8>> = [&ops[3..4], &ops[5..6]]
        .map(|first| file_of(&[&ops[..3], first].concat()))
        .to_vec();
    for (file, op) in from.iter().zip(second) {
        after(file, &[op]);
    }
    let met = file_of(&[&ops[..4], &ops[5..6]].concat());
    for op in second {
        let body = issued(&met, op.replica, Issue::Move(op.node, op.parent));
        assert_eq!(body.expect("a good move")[0], DOWNWARD);
    }
}

/// A further op of one who has met one of two moves is judged after both: these keep
/// the promise. It is its own move that can be passed over. With an upward one this
/// takes three nodes, with a downward one two.
#[test]
fn a_further_op_that_has_met_a_move() {
    let mut lost: BTreeMap<(u8, usize), usize> = BTreeMap::new();
    for shape in (1..=3).flat_map(shapes) {
        let file = file_of(&by_one(&shape, 4));
        for replicas in [[2, 6], [6, 2]] {
            let [first, second] = replicas.map(|r| upward_from(&file, r));
            for one in &first {
                let met = file_with(&file, &[one.clone()]);
                let movers = [1, 7, replicas[0]].into_iter();
                for further in movers.flat_map(|r| ops_from(&met, r)) {
                    for two in &second {
                        let both = [one.clone(), two.clone()];
                        let whole = file_with(&met, &[two.clone(), further.clone()]);
                        assert!(is_kept(&whole, &both));
                        if outcome_of(&whole, &further) == 3 {
                            *lost.entry((further[0], shape.len())).or_default() += 1;
                        }
                    }
                }
            }
        }
    }
    let expected = [((UPWARD, 3), 3), ((DOWNWARD, 2), 3), ((DOWNWARD, 3), 99)];
    assert_eq!(lost, BTreeMap::from(expected));
}

/// a > b > c. Replica 2 moves c to the root and replica 6 leaves it under b. Whoever
/// has met the first alone, be it replica 2, moves b upward under c.
#[test]
fn smallest_log_with_an_upward_move_that_has_met_one() {
    let file = file_of(&by_one(&[0, 1, 2], 4));
    let [b, c] = [1026, 1027];
    let counts = &[0, 0, 0, 3];
    let tidy = [up(2, c, 0, counts), up(6, c, b, counts)];
    for replica in [1, 2, 7] {
        let further = up(replica, b, c, &[0, 1, 0, 3]);
        after(&after(&file, &tidy[..1]), &[further]);
        let whole = file_with(&after(&file, &tidy), &[further.bytes().to_vec()]);
        assert_eq!(outcomes_of(&whole, &[tidy[0], tidy[1], further]), [2, 1, 3]);
    }
}

/// Adds and removes, however many, by replicas that have met any part of the log: a
/// new node hangs below all that are moved, no move names it, and marks are no matter
/// to judging.
#[test]
fn further_adds_and_removes_do_no_harm() {
    let (mut kinds, mut early) = ([0; 2], 0);
    for seed in 0..60 {
        let rng = &mut Rng::new(123_000 + seed);
        let count = 30 + rng.below(150);
        let style = rng.pick(&[Style::moves as fn(usize, usize) -> Style, Style::mixed]);
        let ops = World::random(rng, style(5, count)).ops;
        let file = file_of(&ops);
        // Three replicas have no op in the log; two of them write the further ops.
        let held = log_of(&ops).held();
        let free: Vec<u8> = (1..=8).filter(|&r| held[usize::from(r) - 1] == 0).collect();
        let mut further = vec![];
        for &replica in &free[..2] {
            let met = 1 + rng.below(ops.len());
            let part = file_of(&ops[..met]);
            let mut buffer = in_buffer(&part, part.len() + 14 * 4);
            early += usize::from(met < ops.len());
            for _ in 0..4 {
                let nodes = added_nodes(&buffer);
                let issue = match nodes.is_empty() || rng.one_in(2) {
                    false => Issue::Remove(rng.pick(&nodes)),
                    true => Issue::Add(rng.pick(&[&nodes[..], &[0]].concat())),
                };
                let (answer, body) = issue_checked(&mut buffer, replica, issue);
                if let Accepted(_) = answer {
                    kinds[usize::from(body[0]) - 1] += 1;
                    further.push(body);
                }
            }
        }
        let mut moves = some_moves(rng, &file);
        moves.retain(|body| !free[..2].contains(&body[1]));
        let before = judged(&file_with(&file, &further));
        let whole = file_with(&file, &[further, moves.clone()].concat());
        check(&before, &whole, &moves);
    }
    assert!(
        kinds.iter().all(|&count| count > 100) && early > 100,
        "{kinds:?} {early}"
    );
}

/// Ops of any kind, one after another, by a replica that has met the whole log and some
/// of the moves: they are judged later, or are downward at the same timestamp.
#[test]
fn whoever_has_met_the_whole_log_does_no_harm() {
    let mut kinds = [0; 5];
    for seed in 0..60 {
        let rng = &mut Rng::new(124_000 + seed);
        let file = file_of(&large_log(rng));
        let moves = some_moves(rng, &file);
        let others = rng.below(moves.len());
        // Its own move was issued from the very log, or it has none there.
        let replica = moves.last().map_or(1, |own| own[1]);
        let own = usize::from(rng.one_in(2));
        let tidy = &moves[..moves.len() - 1 + own];
        let met = [&moves[..others], &tidy[tidy.len() - own..]].concat();
        let met = file_with(&file, &met);
        let mut buffer = in_buffer(&met, met.len() + 14 * 4);
        let mut further = vec![];
        while further.len() < 4 {
            let nodes = added_nodes(&buffer);
            let (node, parent) = (rng.pick(&nodes), rng.pick(&[&nodes[..], &[0]].concat()));
            let issue = match rng.below(6) {
                0 => Issue::Add(parent),
                1 => Issue::Remove(node),
                _ => Issue::Move(node, parent),
            };
            let before = buffer.clone();
            let (answer, body) = issue_checked(&mut buffer, replica, issue);
            let is_tidy = met.len() == file.len() && further.is_empty() && body[0] == UPWARD;
            match answer {
                // From the very log it would be one of the moves.
                Accepted(_) if is_tidy => buffer = before,
                Accepted(_) => further.push(body),
                _ => {}
            }
        }
        further
            .iter()
            .for_each(|body| kinds[usize::from(body[0])] += 1);
        let whole = file_with(&file, &[tidy, &further].concat());
        assert!(is_kept(&whole, tidy));
    }
    assert!(kinds[1..].iter().all(|&count| count > 20), "{kinds:?}");
}

// ---- ops that nobody issued

/// A delivered kind is taken as written. "Upward" to a node's own child, which no
/// replica can issue, loses without any other op; and so does one of two siblings that
/// go "upward" under each other.
#[test]
fn ops_that_nobody_issued_take_it_away() {
    let mut lost = vec![];
    for shape in (1..=2).flat_map(shapes) {
        let ops = by_one(&shape, 4);
        let file = file_of(&ops);
        let counts = log_of(&ops).held();
        let nodes = added_nodes(&file);
        for &node in &nodes {
            for parent in [&[0][..], &nodes].concat() {
                let body = up(1, node, parent, &counts).bytes().to_vec();
                let mut buffer = in_buffer(&file, file.len() + 14);
                if deliver_checked(&mut buffer, &body) == Refused(7) {
                    assert_eq!(node, parent);
                } else if !is_kept(&buffer, &[body]) {
                    lost.push((shape.clone(), node, parent));
                }
            }
        }
    }
    assert_eq!(lost, [(vec![0, 1], 1025, 1026)]);
    let child = file_of(&by_one(&[0, 1], 4));
    assert_eq!(issued(&child, 1, Issue::Move(1025, 1026)), None);

    let counts = &[0, 0, 0, 2];
    let siblings = file_of(&adds(4, 2));
    let moves = [up(1, 1025, 1026, counts), up(2, 1026, 1025, counts)];
    let mut buffer = in_buffer(&siblings, siblings.len() + 28);
    for op in &moves {
        assert!(matches!(
            deliver_checked(&mut buffer, &op.bytes()),
            Accepted(_)
        ));
        let issue = Issue::Move(op.node, op.parent);
        assert_eq!(
            issued(&siblings, op.replica, issue).map(|body| body[0]),
            Some(DOWNWARD)
        );
    }
    assert_eq!(outcomes_of(&buffer, &moves), [3, 1]);
}

// ---- two moves of one replica

/// Both are applied where they move the same node, since the second has a greater
/// timestamp: one node is enough. With no other replica's move none has outcome 3, for
/// each was issued in the tree in which it is judged.
#[test]
fn two_moves_of_one_replica_take_it_away() {
    let file = file_of(&adds(4, 1));
    let moves = [up(2, 1025, 0, &[0, 0, 0, 1]), up(2, 1025, 0, &[0, 1, 0, 1])];
    let whole = after(&after(&file, &moves[..1]), &moves[1..]);
    assert_eq!(outcomes_of(&whole, &moves), [1, 1]);
    for shape in (1..=4).flat_map(shapes) {
        let file = file_of(&by_one(&shape, 4));
        for one in upward_from(&file, 2) {
            let met = file_with(&file, &[one.clone()]);
            for two in upward_from(&met, 2) {
                let outcomes = judged(&file_with(&met, &[two.clone()])).1;
                assert_eq!([&one, &two].map(|body| outcomes[slot(body)]), [1, 1]);
            }
        }
    }
}

/// The same with moves of another replica: outcome 3 takes three nodes.
#[test]
fn two_moves_of_one_replica_and_one_of_another() {
    let mut lost = [0; 4];
    for shape in (1..=3).flat_map(shapes) {
        let file = file_of(&by_one(&shape, 4));
        for (twice, once) in [(2, 6), (6, 2)] {
            for first in upward_from(&file, twice) {
                let met = file_with(&file, &[first.clone()]);
                for second in upward_from(&met, twice) {
                    for other in upward_from(&file, once) {
                        let moves = [first.clone(), second.clone(), other];
                        let outcomes = judged(&file_with(&file, &moves)).1;
                        lost[shape.len()] += usize::from(!none_below(&moves, &outcomes));
                    }
                }
            }
        }
    }
    assert_eq!(lost, [0, 0, 0, 1]);
}

/// Two buffers that issue as one replica from one very log write the same sequence:
/// where the one is held the other is refused with 4. What is held keeps the promise,
/// but the buffers differ for good.
#[test]
fn one_replica_in_two_buffers() {
    let file = file_of(&by_one(&[0, 1], 4));
    let counts = &[0, 0, 0, 2];
    let moves = [up(2, 1026, 0, counts), up(2, 1026, 1025, counts)].map(|op| op.bytes().to_vec());
    let both = [&moves[..1], &moves[1..]].map(|own| {
        let mut buffer = in_buffer(&file_with(&file, own), file.len() + 28);
        let other = if own[0] == moves[0] {
            &moves[1]
        } else {
            &moves[0]
        };
        assert_eq!(deliver_checked(&mut buffer, other), Refused(4));
        check(&judged(&file), &buffer, own);
        buffer
    });
    assert_ne!(both[0], both[1]);
}

// ---- not from that very log

/// A replica that adds or removes before its move issues from a log of its own. No move
/// has outcome 3 then, since the depths of the old nodes are the same in all these logs,
/// and a new node is deeper than its parent. But of those that move the same node two
/// can be applied: they have different timestamps.
#[test]
fn an_add_or_remove_before_the_move() {
    let mut twice = BTreeSet::new();
    for shape in (1..=3).flat_map(shapes) {
        let file = file_of(&by_one(&shape, 4));
        let mut before = ops_from(&file, 2);
        before.retain(|body| body[0] < UPWARD);
        for early in before {
            let met = file_with(&file, &[early.clone()]);
            for own in upward_from(&met, 2) {
                for other in upward_from(&file, 6) {
                    let moves = [own.clone(), other];
                    let whole = file_with(&met, &moves);
                    let outcomes = judged(&whole).1;
                    assert!(moves.iter().all(|body| outcomes[slot(body)] == 1));
                    if !is_kept(&whole, &moves) {
                        assert_eq!(node_of(&moves[0]), node_of(&moves[1]));
                        twice.insert((early[0], shape.len()));
                    }
                }
            }
        }
    }
    // With one node a remove leaves none that can be moved.
    assert_eq!(
        twice,
        BTreeSet::from([(1, 1), (1, 2), (1, 3), (2, 2), (2, 3)])
    );
    // One node, and replica 2 adds another before it moves the first.
    let file = file_of(&adds(4, 1));
    let early = add(2, 0, &[0, 0, 0, 1]);
    let met = file_with(&file, &[early.bytes().to_vec()]);
    let moves = [up(2, 1025, 0, &[0, 1, 0, 1]), up(6, 1025, 0, &[0, 0, 0, 1])];
    after(&met, &moves[..1]);
    after(&file, &moves[1..]);
    let whole = file_with(&met, &moves.map(|op| op.bytes().to_vec()));
    assert_eq!(outcomes_of(&whole, &moves), [1, 1]);
}

// ---- a log that is not sound

/// Nothing is added to it, and it has no outcomes: without this condition the promise
/// says nothing, and cannot fail.
#[test]
fn nothing_is_added_to_what_is_not_sound() {
    let ops = by_one(&[0, 1], 4);
    let file = file_of(&ops);
    let body = up(2, 1026, 0, &[0, 0, 0, 2]).bytes();
    for place in 0..file.len() {
        let mut damaged = in_buffer(&file, file.len() + 14);
        damaged[place] ^= 0x40;
        if is_sound(&damaged) {
            continue;
        }
        let (answer, _) = issue_checked(&mut damaged, 2, Issue::Move(1026, 0));
        assert_eq!(answer, Refused(1));
        assert_eq!(deliver_checked(&mut damaged, &body), Refused(1));
        assert_eq!(judge_in(&damaged, 2041, 2041).0, Refused(1));
    }
}
