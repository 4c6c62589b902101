//! Climbing from a parent to a node, and what rests on it: moves that are issued
//! and judged near and far in deep trees.

use super::damage;
use super::examples::{
    add, adds, chains, circle, down, file_of, log_of, longest_chain, mutual, p1, p10, p11, p12,
    remove, rival_before_circle, rival_passed_over, rivals_with_different_vectors, small_logs,
    turns, unmet, unremoved, up,
};
use super::world::{Deep, Style, World};
use super::Script;
use crate::log::MAX_FILE;
use crate::op::{Kind, Op, MAX_SEQUENCE, OP_LEN, REPLICAS};
use crate::rng::Rng;
use crate::script::Case;
use crate::{Log, Tree};

const ROOM: u8 = 14;
const TABLE: u16 = 2041;

pub fn write(script: &mut Script) {
    small(script);
    unsound(script);
    deliveries(script);
    issues(script);
    random_logs(script);
    borders(script);
    longest(script);
    deep_logs(script);
    one_chain(script);
    marks_between(script);
    equal_depths(script);
    circles_of_chains(script);
    deepest_issues(script);
}

fn tree_of(file: &[u8]) -> Option<Tree> {
    Log::open(file).map(|log| Tree::judge(&log))
}

/// The tree of the script's buffer, which is sound.
fn tree(script: &Script) -> Tree {
    Tree::judge(&Log::open(script.buffer()).unwrap_or_default())
}

/// Where a climb can start and end: the root and the added nodes.
fn ends(tree: &Tree) -> Vec<u16> {
    std::iter::once(0).chain(tree.nodes()).collect()
}

fn climb_each(script: &mut Script, pairs: impl IntoIterator<Item = (u16, u16)>) {
    for (parent, node) in pairs {
        script.climb(parent, node);
    }
}

fn every_pair(script: &mut Script) {
    let ends = ends(&tree(script));
    for &parent in &ends {
        climb_each(script, ends.iter().map(|&node| (parent, node)));
    }
}

/// Climbs in the script's tree, a few of each sort.
fn some_pairs(script: &mut Script, rng: &mut Rng, count: usize) {
    let tree = tree(script);
    for _ in 0..count {
        let (parent, node) = some_pair(rng, &tree);
        script.climb(parent, node);
    }
}

/// A parent with a node just above it, far above it, below it or anywhere.
fn some_pair(rng: &mut Rng, tree: &Tree) -> (u16, u16) {
    let parent = some_deep(rng, tree);
    let path: Vec<u16> = tree.path(parent).collect();
    match rng.below(6) {
        0 | 1 => (parent, path[rng.below(path.len().min(4))]),
        2 => (parent, rng.pick(&path)),
        3 => (rng.pick(&path), parent),
        _ => (parent, rng.pick(&ends(tree))),
    }
}

/// The deepest of a few nodes, or the root if there is none.
fn some_deep(rng: &mut Rng, tree: &Tree) -> u16 {
    let ends = ends(tree);
    let few = [(); 3].map(|()| rng.pick(&ends));
    few.into_iter()
        .max_by_key(|&node| tree.depth(node))
        .unwrap_or(0)
}

fn issue_move(script: &mut Script, replica: usize, node: u16, parent: u16) {
    script.push(Case::Move(replica as u8, node, parent, ROOM));
}

/// Each pair of every small log, with moves that were left out, and removals.
fn small(script: &mut Script) {
    let mut logs = small_logs();
    logs.extend([unremoved(), circle(1), circle(8), turns(5)]);
    for ops in logs {
        script.load(&file_of(&ops));
        every_pair(script);
    }
    // Bytes past the end are not read.
    script.resize(script.buffer().len() + 9);
    some_pairs(script, &mut Rng::new(80), 6);
}

/// What is no log has no tree. A damaged file may be sound: then its own nodes
/// are named, else those that it had.
fn unsound(script: &mut Script) {
    for file in [vec![], vec![0; 31], vec![0; 32], file_of(&mutual())] {
        script.load(&file);
        climb_each(script, [(0, 0), (257, 0), (0, 257), (257, 257), (513, 257)]);
    }
    let rng = &mut Rng::new(81);
    for ops in &small_logs()[1..] {
        let file = file_of(ops);
        for round in 0..4 {
            let damaged = match round {
                0 => file[..rng.below(file.len())].to_vec(),
                _ => damage::random(rng, &file),
            };
            let known = tree_of(&damaged).or(tree_of(&file));
            let ends = known.map_or(vec![0], |tree| ends(&tree));
            script.load(&damaged);
            climb_each(script, [(); 2].map(|()| (rng.pick(&ends), rng.pick(&ends))));
        }
    }
}

/// Each move that comes makes another tree, also one that is judged before those
/// that were there.
fn deliveries(script: &mut Script) {
    for ops in [
        p1(),
        p10(),
        p11(),
        p12(),
        rival_before_circle(),
        rival_passed_over(),
        rivals_with_different_vectors(),
    ] {
        let (adds, moves): (Vec<Op>, Vec<Op>) = ops.iter().partition(|op| op.kind == Kind::Add);
        script.load_in(&file_of(&adds), 200);
        for op in moves {
            script.deliver(&op.bytes());
            climb_others(script);
        }
    }
}

/// Each pair of two different nodes.
fn climb_others(script: &mut Script) {
    let nodes: Vec<u16> = tree(script).nodes().collect();
    for &parent in &nodes {
        let others = nodes.iter().filter(|&&node| node != parent);
        climb_each(script, others.map(|&node| (parent, node)));
    }
}

/// The tree after an issue is another one, after a refused issue it is not.
fn issues(script: &mut Script) {
    let rng = &mut Rng::new(82);
    for ops in [unmet(), unremoved(), turns(12), adds(3, 6)] {
        script.load_in(&file_of(&ops), 600);
        for _ in 0..12 {
            some_issue(script, rng);
            some_pairs(script, rng, 2);
        }
        script.push(Case::Judge(TABLE, TABLE));
    }
}

/// A move in the present tree; the climb that it rests on comes first.
fn some_issue(script: &mut Script, rng: &mut Rng) {
    let tree = tree(script);
    let node = some_deep(rng, &tree);
    let parent = some_parent(rng, &tree, node);
    let replica = 1 + rng.below(REPLICAS);
    script.climb(parent, node);
    issue_move(script, replica, node, parent);
}

/// A new parent just below the node or far below it, just above it or far above
/// it, at about its depth, or anywhere; the root, if there is none such.
fn some_parent(rng: &mut Rng, tree: &Tree, node: u16) -> u16 {
    let depth = tree.depth(node);
    let near = |&other: &u16| tree.depth(other).abs_diff(depth) <= 2;
    let below = |&other: &u16| tree.path(other).any(|above| above == node);
    let above = |&other: &u16| tree.path(node).any(|above| above == other);
    let mut parents = ends(tree);
    parents.retain(|&other| other != node);
    match rng.below(7) {
        0 => parents.retain(|other| near(other) && below(other)),
        1 => parents.retain(below),
        2 => parents.retain(|other| near(other) && above(other)),
        3 => parents.retain(above),
        4 | 5 => parents.retain(|other| near(other) && !below(other) && !above(other)),
        _ => {}
    }
    match parents[..] {
        [] => 0,
        _ => rng.pick(&parents),
    }
}

/// Many moves at one timestamp, and removals.
fn random_logs(script: &mut Script) {
    for seed in 0..40 {
        let rng = &mut Rng::new(800 + seed);
        let style = rng.pick(&[
            Style::moves as fn(usize, usize) -> Style,
            Style::moves,
            Style::mixed,
        ]);
        let style = style(2 + rng.below(7), 10 + rng.below(70));
        script.load(&file_of(&World::random(rng, style).ops));
        some_pairs(script, rng, 7);
    }
}

/// The last nodes of a replica and the first of the next, below each other and in
/// other branches: 511 > 513 > 515, 511 > 769, and 510 > 514.
fn borders(script: &mut Script) {
    let mut ops = adds(1, MAX_SEQUENCE);
    let mut counts = log_of(&ops).held();
    for parent in [511, 510, 513] {
        ops.push(add(2, parent, &counts));
        counts[1] += 1;
    }
    ops.push(add(3, 511, &counts));
    script.load(&file_of(&ops));
    let ends = [257, 510, 511, 513, 514, 515, 769];
    for parent in ends {
        climb_each(script, ends.iter().map(|&node| (parent, node)));
    }
}

/// In one chain of every node the number of steps is the difference of places.
fn longest(script: &mut Script) {
    let rng = &mut Rng::new(83);
    let chain: Vec<u16> = longest_chain().iter().map(|op| op.node).collect();
    let last = chain.len() - 1;
    script.load(&file_of(&longest_chain()));
    let places = [
        last,
        last - 1,
        last - 2,
        last - 255,
        last - 256,
        last / 2,
        1,
        0,
    ];
    for place in places {
        script.climb(chain[last], chain[place]);
    }
    climb_each(script, [(chain[last], 0), (chain[0], 0), (0, 0)]);
    // From above: the root, the first node, one half way, and the last but one.
    for parent in [0, chain[0], chain[last / 2], chain[last - 1]] {
        climb_each(script, [(parent, chain[last]), (parent, chain[last - 1])]);
    }
    climb_each(script, [(0, chain[0]), (chain[0], chain[1])]);
    for border in (1..REPLICAS).map(|replicas| replicas * MAX_SEQUENCE) {
        let [before, after] = [chain[border - 1], chain[border]];
        climb_each(script, [(after, before), (before, after), (after, after)]);
    }
    for steps in [127, 128, 254, 255, 256, 257, 1023, 1024] {
        let place = steps + rng.below(chain.len() - steps);
        script.climb(chain[place], chain[place - steps]);
    }
}

/// Chains of hundreds of nodes that were moved along and across each other.
fn deep_logs(script: &mut Script) {
    for seed in 0..8 {
        let rng = &mut Rng::new(850 + seed);
        let chains = 1 + rng.below(3);
        let deep = Deep {
            chains,
            length: (80 + rng.below(160)) / chains,
            moves: 20 + rng.below(30),
        };
        let file = file_of(&World::deep(rng, deep).ops);
        script.load_in(&file, file.len() + 8 * OP_LEN);
        script.push(Case::Judge(TABLE, TABLE));
        some_pairs(script, rng, 12);
        for _ in 0..8 {
            some_issue(script, rng);
        }
        some_pairs(script, rng, 4);
    }
}

/// Moves in one chain: below the node first, which is refused, and then above it
/// and beside it, from the chain's end on.
fn one_chain(script: &mut Script) {
    let rng = &mut Rng::new(84);
    let length = 150;
    let chain: Vec<u16> = turns(length).iter().map(|op| op.node).collect();
    let file = file_of(&turns(length));
    script.load_in(&file, file.len() + 60 * OP_LEN);
    for place in [0, 1, 74, length - 3] {
        for below in [place + 1, place + 2, (place + length) / 2, length - 1] {
            issue_move(script, 1 + below % REPLICAS, chain[place], chain[below]);
        }
    }
    issue_move(script, 1, chain[length - 2], chain[length - 1]);
    // To its own parent, to the one above that, under the node that is beside it
    // then, and far up. A parent just above is deeper than the way there is long,
    // one far above is not: only the depths count.
    let last = length - 1;
    let moves = [
        (last, last - 1),
        (last, last - 2),
        (last, last - 1),
        (last - 1, 0),
        (last - 5, 70),
        (last - 5, last - 6),
        (110, 10),
        (100, 99),
        (80, 20),
        (1, 0),
    ];
    for (replica, (place, parent)) in (1..=REPLICAS).cycle().zip(moves) {
        issue_move(script, replica, chain[place], chain[parent]);
        script.climb(chain[last], chain[place]);
        script.climb(chain[place], chain[parent]);
    }
    for place in [60, 40, 0] {
        issue_move(script, 8, chain[place], 0);
        script.climb(chain[last], chain[0]);
    }
    script.push(Case::Judge(TABLE, TABLE));
    for _ in 0..24 {
        some_issue(script, rng);
    }
    some_pairs(script, rng, 8);
    script.push(Case::Judge(TABLE, TABLE));
}

/// A climb goes on over marked nodes; 11 is for the node and the parent alone.
fn marks_between(script: &mut Script) {
    let mut ops = turns(40);
    let chain: Vec<u16> = ops.iter().map(|op| op.node).collect();
    let mut counts = log_of(&ops).held();
    for (index, place) in [(2, 10), (2, 11), (6, 30)] {
        ops.push(remove(index as u8 + 1, chain[place], &counts));
        counts[index] += 1;
    }
    let file = file_of(&ops);
    script.load_in(&file, file.len() + 8 * OP_LEN);
    for place in [8, 9, 10, 11, 12, 29, 30, 31] {
        climb_each(script, [(chain[39], chain[place]), (chain[place], 0)]);
        issue_move(script, 4, chain[place], chain[39]);
        issue_move(script, 4, chain[place], chain[12]);
        script.climb(chain[39], chain[place]);
    }
    over_marks(script, &chain);
}

/// Moves over the marked nodes, and of them.
fn over_marks(script: &mut Script, chain: &[u16]) {
    for (node, parent) in [(39, 9), (30, 9), (9, 30), (12, 9), (38, 39), (11, 0)] {
        issue_move(script, 5, chain[node], chain[parent]);
        script.climb(chain[39], chain[parent]);
        script.climb(chain[38], chain[parent]);
    }
}

/// Chains side by side: nodes at these depths move under one that is less deep by
/// one, as deep, or deeper by one. Only the first of these is upward.
fn equal_depths(script: &mut Script) {
    let length = 262;
    let ops = chains(3, length);
    let node = |chain: usize, depth: usize| ops[chain * length + depth - 1].node;
    let file = file_of(&ops);
    script.load_in(&file, file.len() + 60 * OP_LEN);
    // The deepest first, so that none has moved with another before.
    let depths: [&[usize]; 2] = [&[261, 256, 200, 129, 64, 17, 2], &[255, 250, 128, 65, 16]];
    for (chain, depths) in [0, 2].into_iter().zip(depths) {
        for &depth in depths {
            let parent = node(1, depth);
            for own in [depth + 1, depth, depth - 1] {
                script.climb(parent, node(chain, own));
                issue_move(script, 1 + own % REPLICAS, node(chain, own), parent);
            }
            script.climb(node(chain, length), node(1, 1));
        }
    }
    // As far from the root as can be, and next to it.
    issue_move(script, 1, node(2, 1), 0);
    issue_move(script, 2, node(1, 1), node(2, 1));
    issue_move(script, 3, node(2, 1), node(1, length));
    script.push(Case::Judge(TABLE, TABLE));
    some_pairs(script, &mut Rng::new(85), 12);
}

/// Two that did not meet move the one chain under the other and this under the
/// first: near and far, the one judged later is left out.
fn circles_of_chains(script: &mut Script) {
    let length = 130;
    let ops = chains(2, length);
    let held = log_of(&ops).held();
    let node = |chain: usize, depth: usize| ops[chain * length + depth - 1].node;
    let file = file_of(&ops);
    for (first, second) in [(1, 1), (2, 1), (1, 3), (length, length), (length, 2)] {
        script.load_in(&file, file.len() + 3 * OP_LEN);
        for op in [
            down(2, node(0, 1), node(1, first), &held),
            down(7, node(1, 1), node(0, second), &held),
            // Far below its own node: no replica issues it, yet it is taken.
            up(5, node(1, 2), node(1, length), &held),
        ] {
            script.deliver(&op.bytes());
            for top in [node(0, 1), node(1, 1)] {
                script.climb(node(0, length), top);
                script.climb(node(1, length), top);
            }
        }
        script.push(Case::Judge(TABLE, TABLE));
    }
}

/// The same at the greatest depths at which there is room to issue.
fn deepest_issues(script: &mut Script) {
    let length = 1000;
    let ops = chains(2, length);
    let node = |chain: usize, depth: usize| ops[chain * length + depth - 1].node;
    script.load_in(&file_of(&ops), MAX_FILE);
    for (above, below) in [(1, 2), (1, 3), (1, length), (2, length), (500, 502)] {
        issue_move(script, 1, node(0, above), node(0, below));
        issue_move(script, 8, node(1, above), node(1, below));
    }
    issue_move(script, 1, node(0, length - 1), node(0, length));
    let moves = [(1000, 999), (999, 999), (998, 999), (513, 512), (512, 512)];
    for (replica, (own, other)) in (1..=REPLICAS).cycle().zip(moves) {
        issue_move(script, replica, node(0, own), node(1, other));
        script.climb(node(0, length), node(1, 1));
    }
    // Now one chain of both.
    issue_move(script, 6, node(0, 1), node(1, length));
    issue_move(script, 7, node(1, 1), node(0, 1));
    issue_move(script, 7, node(1, 1), node(0, 511));
    climb_each(
        script,
        [
            (node(0, 511), node(1, 1)),
            (node(0, 511), node(1, length)),
            (node(0, 511), node(0, 1)),
            (node(0, 511), node(0, length)),
            (node(1, length), node(0, 1)),
        ],
    );
    // Upward to what is near and far above, and to the root.
    for (place, (own, other)) in [(511, 510), (511, 509), (510, 1)].into_iter().enumerate() {
        issue_move(script, 1 + place, node(0, own), node(0, other));
        script.climb(node(0, 511), node(1, 1));
    }
    issue_move(script, 4, node(0, 1), node(1, 1));
    issue_move(script, 5, node(0, 1), 0);
    script.push(Case::Judge(TABLE, TABLE));
    some_pairs(script, &mut Rng::new(86), 6);
}
