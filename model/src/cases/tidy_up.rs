//! The tidy-up: upward moves that different replicas issue from one very log, and what
//! there is where one condition of its promise is not met.

use super::examples::{
    add, adds, bundle_for, chains, down, file_of, holdback_of, log_of, p11, remove, turns, up,
};
use super::issue::ops;
use super::world::{Deep, Style, World};
use super::Script;
use crate::op::{Kind, Op, OP_LEN};
use crate::rng::Rng;
use crate::script::Case;
use crate::tree::SLOTS;
use crate::{Knowledge, Log, Tables, Tree, View};

const ROOM: u8 = 14;

pub fn write(script: &mut Script) {
    small(script);
    deep(script);
    wide(script);
    one_node(script);
    random_logs(script);
    other_ways(script);
    downward(script);
    further(script);
    not_issued(script);
    two_of_one(script);
    from_other_logs(script);
}

fn judge(script: &mut Script) {
    script.push(Case::Judge(SLOTS as u16, SLOTS as u16));
}

/// What a replica is to move, and where.
type Wish = (u8, u16, u16);

/// Sets the buffer to the file with room for so many more ops.
fn load(script: &mut Script, file: &[u8], more: usize) {
    let mut buffer = file.to_vec();
    buffer.resize(file.len() + OP_LEN * more, 0xa5);
    script.load(&buffer);
}

/// Issues each move from the very log of the file; the ops that were accepted, in the
/// order of the wishes.
fn issue_each(script: &mut Script, file: &[u8], wishes: &[Wish]) -> Vec<Op> {
    let mut issued = vec![];
    for &(replica, node, parent) in wishes {
        load(script, file, 1);
        let answer = script.push(Case::Move(replica, node, parent, ROOM));
        if answer.starts_with('a') {
            issued.extend(of_replica(script, replica).pop());
        }
    }
    issued
}

/// The ops of a replica in the script's buffer.
fn of_replica(script: &Script, replica: u8) -> Vec<Op> {
    let mut own = ops(script.buffer());
    own.retain(|op| op.replica == replica);
    own
}

/// Delivers these to the log, judged after each.
fn deliver_each(script: &mut Script, file: &[u8], ops: &[Op]) {
    load(script, file, ops.len());
    for op in ops {
        script.deliver(&op.bytes());
        judge(script);
    }
}

/// Delivers these to the log, judged at the end.
fn deliver_all(script: &mut Script, file: &[u8], ops: &[Op]) {
    load(script, file, ops.len());
    for op in ops {
        script.deliver(&op.bytes());
    }
    judge(script);
}

/// The whole tidy-up: each replica issues; then all come in two orders, with copies of
/// some. The second time the first of them is issued in that buffer.
fn tidy_up(script: &mut Script, rng: &mut Rng, file: &[u8], wishes: &[Wish]) {
    let issued = issue_each(script, file, wishes);
    let are_good = issued.len() == wishes.len() && issued.iter().all(|op| op.kind == Kind::Up);
    assert!(are_good, "a tidy-up has upward moves alone");
    let mut order = issued.clone();
    rng.shuffle(&mut order);
    deliver_each(script, file, &order);
    rng.shuffle(&mut order);
    let first = order[0];
    load(script, file, wishes.len());
    script.push(Case::Move(first.replica, first.node, first.parent, ROOM));
    for (place, op) in order.iter().enumerate().skip(1) {
        script.deliver(&op.bytes());
        if rng.one_in(3) {
            let copy = order[rng.below(place + 1)];
            script.deliver(&copy.bytes());
        }
    }
    judge(script);
    script.push(Case::Outline);
}

/// Upward moves for so many replicas from this log; about half of them of one node. A
/// replica that can issue none has none.
fn wishes(rng: &mut Rng, file: &[u8], count: usize) -> Vec<Wish> {
    let log = Log::open(file).unwrap_or_default();
    let tree = Tree::judge(&log);
    let held = log.held();
    let unmarked = |&node: &u16| log.knowledge(&held, node) == Knowledge::Unmarked;
    let mut nodes: Vec<u16> = tree.nodes().filter(unmarked).collect();
    let mut replicas: Vec<u8> = (1..=8).collect();
    replicas.retain(|&replica| held[usize::from(replica) - 1] < 255);
    rng.shuffle(&mut replicas);
    replicas.truncate(if nodes.is_empty() { 0 } else { count });
    // Deep nodes have more ways up.
    nodes.sort_by_key(|&node| tree.depth(node));
    let deeper_half = &nodes[nodes.len() / 2..];
    let mut wishes: Vec<Wish> = vec![];
    for replica in replicas {
        let node = match wishes.first() {
            Some(first) if rng.one_in(2) => first.1,
            _ => rng.pick(deeper_half),
        };
        let less_deep = |&parent: &u16| tree.depth(parent) < tree.depth(node);
        let mut parents: Vec<u16> = nodes.iter().copied().filter(less_deep).collect();
        parents.push(0);
        wishes.push((replica, node, rng.pick(&parents)));
    }
    wishes
}

/// A tree by the place of each node's parent, 0 for the root, added by one replica.
fn tree(replica: u8, parents: &[usize]) -> Vec<Op> {
    let mut ops = adds(replica, parents.len());
    for (place, &parent) in parents.iter().enumerate() {
        ops[place].parent = parent.checked_sub(1).map_or(0, |at| ops[at].node);
    }
    ops
}

/// Every tree of three nodes and some of four, with two to four replicas.
fn small(script: &mut Script) {
    let trees: [&[usize]; 10] = [
        &[0, 0, 0],
        &[0, 0, 1],
        &[0, 0, 2],
        &[0, 1, 0],
        &[0, 1, 1],
        &[0, 1, 2],
        &[0, 1, 2, 3],
        &[0, 1, 1, 3],
        &[0, 0, 1, 2],
        &[0, 1, 2, 0],
    ];
    for (seed, parents) in trees.into_iter().enumerate() {
        let rng = &mut Rng::new(11_000 + seed as u64);
        let file = file_of(&tree(1 + seed as u8 % 8, parents));
        let wishes = wishes(rng, &file, 2 + seed % 3);
        tidy_up(script, rng, &file, &wishes);
    }
}

/// Chains: from far below to just above, and to the root.
fn deep(script: &mut Script) {
    for (seed, (count, length)) in [(1, 12), (2, 8), (1, 60), (3, 40), (1, 300)]
        .into_iter()
        .enumerate()
    {
        let rng = &mut Rng::new(11_100 + seed as u64);
        let file = file_of(&chains(count, length));
        let wishes = wishes(rng, &file, 4 + seed);
        tidy_up(script, rng, &file, &wishes);
    }
    // Each node of a chain goes under the one two above: what was below is not any more.
    let ops = turns(10);
    let file = file_of(&ops);
    let wishes: Vec<Wish> = (1..=8)
        .map(|r| (r as u8, ops[r + 1].node, ops[r - 1].node))
        .collect();
    tidy_up(script, &mut Rng::new(11_110), &file, &wishes);
}

/// Many nodes under the root and under a few of these.
fn wide(script: &mut Script) {
    for (seed, count) in [20, 60, 200].into_iter().enumerate() {
        let rng = &mut Rng::new(11_200 + seed as u64);
        let parents: Vec<usize> = (0..count)
            .map(|place| if place < 5 { 0 } else { place % 7 })
            .collect();
        let file = file_of(&tree(6, &parents));
        let wishes = wishes(rng, &file, [8, 3, 6][seed]);
        tidy_up(script, rng, &file, &wishes);
    }
}

/// All replicas move one node, each to another parent; the move of a higher replica may
/// come before or after those of the lower.
fn one_node(script: &mut Script) {
    let ops = turns(10);
    let file = file_of(&ops);
    let last = ops[9].node;
    let wishes: Vec<Wish> = (1..=8).map(|r| (r as u8, last, ops[r].node)).collect();
    let mut issued = issue_each(script, &file, &wishes);
    for _ in 0..2 {
        deliver_each(script, &file, &issued);
        issued.reverse();
    }
    // A node under the root that stays there: upward all the same.
    let file = file_of(&adds(3, 1));
    let wishes: Vec<Wish> = (1..=8).map(|replica| (replica, 769, 0)).collect();
    tidy_up(script, &mut Rng::new(114), &file, &wishes);
}

/// Logs with clashing and passed-over moves and removes before the tidy-up.
fn random_logs(script: &mut Script) {
    for seed in 0..7 {
        let rng = &mut Rng::new(11_500 + seed);
        let replicas = 1 + rng.below(8);
        let count = 10 + rng.below(80);
        let ops = match seed % 3 {
            0 => World::random(rng, Style::moves(replicas, count)).ops,
            1 => World::random(rng, Style::mixed(replicas, count)).ops,
            _ => {
                let deep = Deep {
                    chains: 2,
                    length: 10 + rng.below(30),
                    moves: rng.below(40),
                };
                World::deep(rng, deep).ops
            }
        };
        let file = file_of(&ops);
        let movers = 2 + rng.below(7);
        let wishes = wishes(rng, &file, movers);
        if wishes.len() > 1 {
            tidy_up(script, rng, &file, &wishes);
        }
    }
}

/// By bundles, with a holdback before the log itself has come, and with a page.
fn other_ways(script: &mut Script) {
    for seed in 0..3 {
        let rng = &mut Rng::new(11_600 + seed);
        let count = 24 + rng.below(20);
        let all = World::random(rng, Style::mixed(4, count)).ops;
        let file = file_of(&all);
        let held = log_of(&all).held();
        let wishes = wishes(rng, &file, 5);
        let mut issued = issue_each(script, &file, &wishes);
        rng.shuffle(&mut issued);
        load(script, &file, issued.len());
        for part in [&issued[..2], &issued[1..4], &issued[..]] {
            let theirs = file_of(&[&all[..], part].concat());
            script.open(&bundle_for(&theirs, held));
            judge(script);
        }
        load(script, &file_of(&all[..all.len() - 3]), issued.len() + 3);
        script.deliver_holdback(&issued[0].bytes(), &holdback_of(&[]));
        let rest = issued[1..].iter().chain(&all[all.len() - 3..]);
        rest.for_each(|op| {
            script.deliver_next(&op.bytes());
        });
        judge(script);
        load(script, &file, issued.len());
        let page = Tables::of(&log_of(&all));
        script.deliver_page(&issued[0].bytes(), &page);
        for op in &issued[1..] {
            script.deliver_on(&op.bytes());
        }
        script.push(Case::Listing(View::Keeping, 2_000));
    }
}

/// Delivers these in their order, judged after each, and the other way round.
fn both_ways(script: &mut Script, file: &[u8], ops: &[Op]) {
    let mut order = ops.to_vec();
    deliver_each(script, file, &order);
    order.reverse();
    deliver_all(script, file, &order);
}

/// Downward moves from the very log, alone and with upward ones.
fn downward(script: &mut Script) {
    let siblings = file_of(&adds(4, 3));
    let nested = file_of(&tree(4, &[0, 1, 0]));
    for (file, moves) in [
        (&siblings, &[(1, 1025, 1026), (6, 1026, 1025)][..]),
        (
            &siblings,
            &[(1, 1025, 1026), (2, 1025, 1026), (6, 1026, 1025)],
        ),
        (
            &siblings,
            &[(1, 1025, 1026), (2, 1026, 1027), (3, 1027, 1025)],
        ),
        (&siblings, &[(1, 1025, 0), (6, 1025, 1026), (7, 1026, 1025)]),
        (&nested, &[(1, 1026, 1027), (6, 1027, 1026)]),
        (&nested, &[(6, 1026, 1027), (1, 1027, 1026)]),
        (
            &nested,
            &[
                (2, 1026, 0),
                (1, 1026, 1027),
                (6, 1027, 1026),
                (8, 1025, 1027),
            ],
        ),
    ] {
        let issued = issue_each(script, file, moves);
        both_ways(script, file, &issued);
    }
}

/// The tidy-up and one op more: by one who lacks a part of the log, by one who has met
/// one of the moves, and adds and removes.
fn further(script: &mut Script) {
    let [a, b, c] = [1025, 1026, 1027];
    let two = &[0, 0, 0, 2];
    // Siblings, then a under b; unmet, b under a.
    let met = [adds(4, 2), vec![down(4, a, b, two)]].concat();
    // a > b, then b to the root and a under b; unmet, b stays.
    let turned = [
        tree(4, &[0, 1]),
        vec![up(4, b, 0, two), down(4, a, b, &[0, 0, 0, 3])],
    ]
    .concat();
    // Adds alone: a, b, c under a, and one more, which the further one has not met.
    let four = tree(4, &[0, 0, 1, 0]);
    let chain = tree(4, &[0, 1, 2]);
    let apart = vec![add(1, 0, &[]), add(2, 0, &[])];
    let three = &[0, 0, 0, 3];
    let has_met = &[0, 1, 0, 3];
    let cases: Vec<(&[Op], Vec<Wish>, Vec<Op>)> = vec![
        (
            &met,
            vec![(5, a, b)],
            vec![down(1, b, a, two), down(8, b, a, two)],
        ),
        (
            &turned,
            vec![(5, a, b)],
            vec![up(1, b, a, two), up(8, b, a, two)],
        ),
        (&four, vec![(5, c, b)], vec![down(8, b, c, three)]),
        (
            &apart,
            vec![(3, 257, 0), (4, 257, 0)],
            vec![up(8, 257, 0, &[1])],
        ),
        (
            &chain,
            vec![(2, c, 0), (6, c, b)],
            vec![
                up(1, b, c, has_met),
                up(2, b, c, has_met),
                up(7, b, c, has_met),
                add(1, c, has_met),
                add(8, a, &[0, 0, 0, 1]),
                remove(8, c, three),
                remove(2, a, has_met),
                down(8, a, b, &[0, 0, 0, 2]),
            ],
        ),
        (
            &chain,
            vec![(2, c, a), (6, b, 0), (7, c, 0)],
            vec![down(2, a, c, has_met)],
        ),
    ];
    for (held, wishes, more) in cases {
        let file = file_of(held);
        let issued = issue_each(script, &file, &wishes);
        for op in more {
            both_ways(script, &file, &[&issued[..], &[op]].concat());
        }
    }
    let all = p11();
    deliver_each(script, &file_of(&all[..3]), &all[3..]);
    // Whoever has met both first moves writes the second ones as downward.
    let met = file_of(&[&all[..4], &all[5..6]].concat());
    let issued = issue_each(script, &met, &[(1, 769, 770), (2, 770, 769)]);
    both_ways(script, &met, &issued);
}

/// Upward as written, but no replica can have issued them so.
fn not_issued(script: &mut Script) {
    let counts = &[0, 0, 0, 2];
    let siblings = file_of(&adds(4, 2));
    let nested = file_of(&tree(4, &[0, 1]));
    issue_each(script, &nested, &[(1, 1025, 1026)]);
    both_ways(script, &nested, &[up(1, 1025, 1026, counts)]);
    both_ways(
        script,
        &nested,
        &[up(1, 1025, 1026, counts), up(2, 1026, 0, counts)],
    );
    issue_each(script, &siblings, &[(1, 1025, 1026), (2, 1026, 1025)]);
    let moves = [up(1, 1025, 1026, counts), up(2, 1026, 1025, counts)];
    both_ways(script, &siblings, &moves);
    // Removed nodes: none is issued, yet what is delivered is taken.
    let ops = [tree(4, &[0, 1]), vec![remove(3, 1026, counts)]].concat();
    let file = file_of(&ops);
    issue_each(script, &file, &[(1, 1026, 0), (2, 1026, 1025)]);
    let counts = &[0, 0, 1, 2];
    both_ways(
        script,
        &file,
        &[up(1, 1026, 0, counts), up(2, 1026, 1025, counts)],
    );
}

/// Two moves of one replica, one after the other, and one of another replica; and two
/// that have the same sequence.
fn two_of_one(script: &mut Script) {
    let single = file_of(&adds(4, 1));
    let chain = file_of(&tree(4, &[0, 1, 2]));
    for (file, own, other) in [
        (&single, [(1025, 0), (1025, 0)], (1025, 0)),
        (&chain, [(1027, 0), (1026, 1027)], (1027, 1026)),
        (&chain, [(1027, 1025), (1027, 0)], (1027, 1026)),
    ] {
        for (twice, once) in [(2, 6), (6, 2)] {
            let others = issue_each(script, file, &[(once, other.0, other.1)]);
            load(script, file, 3);
            for (node, parent) in own {
                script.push(Case::Move(twice, node, parent, ROOM));
            }
            let mut all = of_replica(script, twice);
            judge(script);
            script.deliver(&others[0].bytes());
            judge(script);
            // The second comes too early, is refused, and comes again.
            all.reverse();
            let order = [&all[..], &others, &all[..1]].concat();
            deliver_all(script, file, &order);
        }
    }
    let rivals = issue_each(script, &chain, &[(2, 1027, 0), (2, 1027, 1025)]);
    both_ways(script, &chain, &rivals);
}

/// A replica that adds or removes before it moves issues from a log of its own.
fn from_other_logs(script: &mut Script) {
    let chain = file_of(&tree(4, &[0, 1, 2]));
    for early in [
        Case::Add(2, 1025, ROOM),
        Case::Add(2, 0, ROOM),
        Case::Remove(2, 1026, ROOM),
    ] {
        let others = issue_each(script, &chain, &[(1, 1027, 0), (6, 1027, 1026)]);
        load(script, &chain, 2);
        script.push(early);
        script.push(Case::Move(2, 1027, 1025, ROOM));
        let own = of_replica(script, 2);
        both_ways(script, &chain, &[&own[..], &others].concat());
        deliver_all(script, &chain, &[&others[..], &own].concat());
    }
}
