//! Batches: moves of several nodes to one parent, issued by one call.

use super::damage;
use super::examples::{
    add, adds, bundle_for, bundle_of, chains, down, file_of, holdback_of, log_of, longest_chain,
    marked, mutual, p1, p10, p11, p12, remove, small_logs, turns, unmet, unremoved, up,
};
use super::issue::{issue_here, ops};
use super::world::{full, Deep, Style, World};
use super::Script;
use crate::log::{HEADER_LEN, MAX_FILE};
use crate::op::{node_number, Op, MAX_SEQUENCE, OP_LEN, REPLICAS};
use crate::rng::Rng;
use crate::script::{Case, MAX_NODES, MAX_RECORDS};
use crate::tree::SLOTS;
use crate::{Knowledge, Log, Tables, Tree, MAX_BATCH};

const ROOM: u8 = 14;
/// The parent in `rack` under which its good nodes go.
const HEADING: u16 = 259;
/// The good nodes of `rack`: ten under the root, a chain of four below the last of
/// these, and leaves.
const GOOD: [u16; 18] = [
    261, 262, 263, 264, 265, 266, 267, 268, 269, 270, 271, 272, 273, 274, 275, 276, 277, 278,
];
/// What cannot be moved under the heading: what no replica can have, no op yet, an
/// op that adds nothing, the root, the heading itself, a marked node, and the two
/// nodes above the heading.
const BAD: [u16; 8] = [4000, 279, 513, 0, HEADING, 260, 257, 258];

pub fn write(script: &mut Script) {
    sizes(script);
    empty_lists(script);
    places_of_refusals(script);
    two_refusals(script);
    order_of_tests(script);
    rooms(script);
    rooms_and_refusals(script);
    full_replicas(script);
    parents(script);
    own_sequences(script);
    each_replica(script);
    twice(script);
    columns_of_a_chain(script);
    small_trees(script);
    unsound(script);
    one_by_one(script);
    random_logs(script);
    deep_logs(script);
    later_outcomes(script);
    later_batches(script);
    bundles(script);
    holdbacks_and_pages(script);
    removals_come(script);
    exchanges(script);
    large_logs(script);
}

/// 257 > 258 > 259, which is the heading; 260, which replica 2 removed; and the
/// good nodes.
fn rack() -> Vec<Op> {
    let mut parents = vec![0, 257, 258, 0];
    parents.extend([0; 10]);
    // 270 > 271 > 272 > 273 > 274, and leaves under 261 and 274.
    parents.extend([270, 271, 272, 273, 261, 261, 274, 274]);
    let mut ops = adds(1, parents.len());
    for (op, parent) in ops.iter_mut().zip(parents) {
        op.parent = parent;
    }
    ops.push(remove(2, 260, &[22]));
    ops
}

/// A batch with 14 bytes lent for each move.
fn batch(replica: u8, parent: u16, nodes: &[u16]) -> Case {
    lent(replica, parent, nodes, OP_LEN * nodes.len())
}

/// A batch with so many bytes lent.
fn lent(replica: u8, parent: u16, nodes: &[u16], room: usize) -> Case {
    Case::Batch(replica, parent, room as u16, nodes.to_vec())
}

fn judge(script: &mut Script) {
    script.push(Case::Judge(SLOTS as u16, SLOTS as u16));
}

/// Each call on the same file, with so much room behind it.
fn each_at(script: &mut Script, file: &[u8], room: usize, cases: impl IntoIterator<Item = Case>) {
    let length = file.len() + room;
    script.load_in(file, length);
    let buffer = script.buffer().to_vec();
    for case in cases {
        // A refused call and an empty list leave the buffer as it was.
        if script.buffer() != buffer {
            script.load_in(file, length);
        }
        script.push(case);
    }
}

/// So many good nodes, again from the first where they are too few.
fn first(count: usize) -> Vec<u16> {
    GOOD.into_iter().cycle().take(count).collect()
}

/// Lists of every size up to 18 and as long as a line has; output of 14 bytes a
/// move, one less, and one more, and at the edges many other lengths.
fn sizes(script: &mut Script) {
    let file = file_of(&rack());
    let most = usize::from(MAX_RECORDS);
    let mut cases = vec![];
    for count in (0..=18).chain([31, 32, 33, MAX_NODES]) {
        let exact = OP_LEN * count;
        let mut lengths = vec![exact, exact + 1];
        lengths.extend(exact.checked_sub(1));
        if [0, 1, 2, 3, 15, 16, 17, MAX_NODES].contains(&count) {
            lengths.extend([0, 13, 14, 27, 28, 223, 224, 225, 237, 238, most]);
            lengths.extend([exact + 13, exact + OP_LEN]);
            lengths.extend(exact.checked_sub(OP_LEN));
        }
        lengths.sort_unstable();
        lengths.dedup();
        // More output than needed is alike from some length on.
        lengths.retain(|&room| room <= exact + 14 || room == most || count > MAX_BATCH);
        for room in lengths.into_iter().filter(|&room| room <= most) {
            cases.push(lent(4, HEADING, &first(count), room));
        }
    }
    each_at(script, &file, OP_LEN * 20, cases);
    // Lists of one kind alone: too many is 2, whatever they name.
    let alike = [GOOD[0], 0, 4000, 260, 257];
    let cases = alike
        .iter()
        .flat_map(|&node| [16, 17, 40].map(|count| lent(4, HEADING, &vec![node; count], most)));
    each_at(script, &file, OP_LEN * 20, cases);
}

/// An empty list is accepted after 1, 2 and 3, whatever else is wrong.
fn empty_lists(script: &mut Script) {
    for ops in [vec![], p1(), marked(), rack(), adds(5, MAX_SEQUENCE)] {
        let file = file_of(&ops);
        script.load(&file);
        for room in [0, 13, 14] {
            script.resize(file.len() + room);
            for replica in [0, 1, 5, 8, 9, 255] {
                script.push(batch(replica, 0, &[]));
            }
            for parent in [257, 260, 4000, 65535] {
                script.push(lent(5, parent, &[], 20));
            }
        }
        script.load(&damage::with(&file, 1, 99));
        for replica in [1, 0, 9] {
            script.push(batch(replica, 0, &[]));
        }
    }
}

/// A list of good nodes in which one place has another.
fn with_bad(count: usize, place: usize, bad: u16) -> Vec<u16> {
    let mut nodes = first(count);
    nodes[place] = bad;
    nodes
}

/// Every cause at the front, in the middle and at the end of lists.
fn places_of_refusals(script: &mut Script) {
    let file = file_of(&rack());
    let mut cases = vec![];
    for count in [1, 2, 3, 5, 16] {
        for place in 0..count {
            for bad in BAD {
                cases.push(batch(4, HEADING, &with_bad(count, place, bad)));
            }
        }
    }
    each_at(script, &file, OP_LEN * 16, cases);
}

/// Two that are refused: the number is that of the one that comes first.
fn two_refusals(script: &mut Script) {
    let file = file_of(&rack());
    let mut cases = vec![];
    for one in BAD {
        for (turn, two) in BAD.into_iter().enumerate() {
            cases.push(batch(4, HEADING, &[one, two]));
            let (count, places) = [(4, [0, 2]), (4, [1, 3]), (16, [14, 15])][turn % 3];
            let mut nodes = with_bad(count, places[0], one);
            nodes[places[1]] = two;
            cases.push(batch(4, HEADING, &nodes));
        }
    }
    each_at(script, &file, OP_LEN * 16, cases);
}

/// Calls with several causes at once: the first in order is answered.
fn order_of_tests(script: &mut Script) {
    let most = usize::from(MAX_RECORDS);
    let mut lists = vec![
        (first(2), 28),
        (first(2), 27),
        (first(17), most),
        (first(17), 0),
        (vec![4000; 17], most),
        (vec![], 0),
        (vec![], most),
    ];
    for bad in [4000, 0, 260, 257] {
        lists.extend([(vec![bad], 14), (vec![bad], 13)]);
        lists.push((vec![GOOD[0], bad], 28));
    }
    let file = file_of(&rack());
    for damaged in [false, true] {
        let file = damage::with(&file, 0, u8::from(damaged));
        for room in [0, 14, 28] {
            let mut cases = vec![];
            for (replica, parents) in [
                (0, &[HEADING][..]),
                (4, &[HEADING, 4000, 260]),
                (9, &[4000]),
            ] {
                for &parent in parents {
                    // On what is not sound all are alike.
                    let lists = lists.iter().step_by(if damaged { 6 } else { 1 });
                    cases.extend(lists.map(|(nodes, room)| lent(replica, parent, nodes, *room)));
                }
            }
            each_at(script, &file, room, cases);
        }
    }
}

/// Room for some moves of a list: 8 unless there is room for all.
fn rooms(script: &mut Script) {
    let file = file_of(&rack());
    for count in [1, 2, 3, 5, 15, 16] {
        let nodes = first(count);
        script.load(&file);
        for fits in 0..=count {
            for more in [0, 13] {
                script.resize(file.len() + OP_LEN * fits + more);
                script.push(batch(4, HEADING, &nodes));
                if fits == count {
                    script.load(&file);
                }
            }
        }
    }
    // Those that are too many are left out, and come when there is room again.
    for fits in 1..5 {
        let nodes = first(5);
        script.load_in(&file, file.len() + OP_LEN * fits + 13);
        script.push(batch(4, HEADING, &nodes[..fits]));
        script.push(batch(4, HEADING, &nodes[fits..]));
        script.push(batch(4, HEADING, &[]));
        script.resize(file.len() + OP_LEN * 5);
        script.push(batch(4, HEADING, &nodes[fits..]));
    }
}

/// With room for k moves the one behind them is the last that is tested: its own
/// causes come before 8, and what comes after it is not looked at.
fn rooms_and_refusals(script: &mut Script) {
    let file = file_of(&rack());
    script.load(&file);
    for (count, rooms) in [
        (1usize, &[0usize, 1][..]),
        (2, &[0, 1, 2]),
        (5, &[0, 1, 2, 3, 4, 5]),
        (16, &[0, 1, 8, 15, 16]),
    ] {
        for &fits in rooms {
            script.resize(file.len() + OP_LEN * fits + 5);
            for place in 0..count {
                // The places near the edge, and the first and the last.
                if place.abs_diff(fits) > 1 && place > 0 && place + 1 < count {
                    continue;
                }
                for bad in [4000, 260, 257] {
                    script.push(batch(4, HEADING, &with_bad(count, place, bad)));
                }
            }
        }
    }
}

/// The replica has so many ops: a > b are its first two nodes, and replica 2 or 3
/// removed its third.
fn nearly_full(replica: u8, count: usize) -> Vec<Op> {
    let mut ops = adds(replica, count);
    ops[1].parent = ops[0].node;
    let marked = ops[2].node;
    let held = log_of(&ops).held();
    ops.push(remove(if replica == 2 { 3 } else { 2 }, marked, &held));
    ops
}

/// Replicas that come to 255 ops by a batch, or would come beyond.
fn full_replicas(script: &mut Script) {
    for (replica, count) in [(5, 252), (1, 253), (8, 254), (5, 255), (3, 239), (7, 240)] {
        let file = file_of(&nearly_full(replica, count));
        let node = |place: usize| node_number(replica, place) as u16;
        let good: Vec<u16> = (4..20).map(node).collect();
        let left = MAX_SEQUENCE - count;
        let bad = [0, node(3), node(1)];
        let mut cases = vec![batch(replica, node(2), &[])];
        // More than are left, and one that is refused before, at and behind the edge.
        for size in [left + 1, left + 2, MAX_BATCH] {
            if size > MAX_BATCH {
                continue;
            }
            cases.push(batch(replica, node(2), &good[..size]));
            for place in [0, left.wrapping_sub(1), left, left + 1] {
                for bad in bad {
                    let mut nodes = good[..size].to_vec();
                    if place < size {
                        nodes[place] = bad;
                        cases.push(batch(replica, node(2), &nodes));
                    }
                }
            }
        }
        cases.push(lent(replica, node(2), &good[..2], 27));
        cases.push(batch(replica, node(3), &good[..2]));
        cases.push(batch(replica, 4000, &good[..2]));
        each_at(script, &file, OP_LEN * 18, cases.clone());
        // The same with room for as many as are left, and for one less.
        for room in [left, left.saturating_sub(1)] {
            script.resize(file.len() + OP_LEN * room);
            script.extend(cases.iter().step_by(4).cloned());
            script.resize(file.len());
        }
        // All that are left, then none.
        script.resize(file.len() + OP_LEN * 18);
        script.push(batch(replica, node(2), &good[..left]));
        script.push(batch(replica, node(2), &good[..1]));
        script.push(batch(replica, node(2), &[]));
        script.push(batch(replica, 4000, &[0]));
        script.push(Case::Move(replica, node(9), 0, ROOM));
        script.push(batch(6, node(2), &good[..2]));
    }
}

/// Each parent with lists in which it is, and in which it is not.
fn parents(script: &mut Script) {
    let file = file_of(&rack());
    let mut cases = vec![];
    for parent in [
        0, 1, 255, 256, 257, 258, 259, 260, 261, 270, 274, 277, 278, 279, 512, 513, 1025, 2303,
        2304, 65535,
    ] {
        cases.extend([
            batch(3, parent, &[268, 269, 272]),
            batch(3, parent, &[parent]),
            batch(3, parent, &[268, parent, 269]),
            batch(3, parent, &[268, 269, parent]),
            batch(3, parent, &[274, 271]),
            batch(3, parent, &[271, 274]),
        ]);
    }
    each_at(script, &file, OP_LEN * 3, cases);
}

/// The numbers that the batch's own ops would have as nodes: none is an add, so
/// none is known, neither before its op nor behind it.
fn own_sequences(script: &mut Script) {
    let mut ops = rack();
    ops.push(add(4, 0, &[22, 1]));
    let file = file_of(&ops);
    let mut cases = vec![];
    for replica in [1, 2, 4, 8] {
        let held = usize::from(log_of(&ops).held()[usize::from(replica) - 1]);
        for next in held..held + 4 {
            let node = node_number(replica, next) as u16;
            for place in 0..4 {
                cases.push(batch(replica, HEADING, &with_bad(4, place, node)));
            }
            cases.push(batch(replica, node, &first(2)));
        }
    }
    each_at(script, &file, OP_LEN * 4, cases);
    // Its own last add is known.
    script.push(batch(4, HEADING, &[1025, 261, 1025]));
    script.push(batch(4, 1025, &[261, 262]));
    script.push(batch(4, 1026, &[261, 262]));
}

/// The bodies of the later replicas move up, those of the earlier ones stay.
fn each_replica(script: &mut Script) {
    let mut ops = rack();
    let mut held = log_of(&ops).held();
    for replica in [2, 5, 8] {
        ops.push(add(replica, 261, &held));
        held[usize::from(replica) - 1] += 1;
    }
    let file = file_of(&ops);
    for count in [1, 2, 16] {
        for replica in 0..=9 {
            script.load_in(&file, file.len() + OP_LEN * 17);
            script.push(batch(replica, HEADING, &GOOD[..count]));
        }
    }
    // One after another in one log.
    script.load_in(&file, file.len() + OP_LEN * 40);
    for replica in (1..=8).rev().chain(1..=8) {
        let parent = GOOD[17 - usize::from(replica)];
        script.push(batch(replica, parent, &GOOD[..3]));
        script.push(batch(replica, HEADING, &[GOOD[4], GOOD[5]]));
    }
    judge(script);
}

/// A node more than once: the second move of it is upward, since it hangs under
/// the parent by then.
fn twice(script: &mut Script) {
    let file = file_of(&rack());
    let cases = [
        batch(4, HEADING, &[261, 261]),
        batch(4, HEADING, &[274, 274]),
        batch(4, HEADING, &[261, 262, 261]),
        batch(4, HEADING, &[261, 275, 261, 275]),
        batch(4, HEADING, &[275, 261, 275]),
        batch(4, HEADING, &[261; 16]),
        batch(4, HEADING, &[261; 17]),
        batch(4, 0, &[261; 3]),
        batch(4, 0, &[HEADING, HEADING]),
        batch(4, HEADING, &[261, 261, 260]),
        batch(4, HEADING, &[257, 257]),
        batch(4, HEADING, &[261, 0, 261]),
    ];
    each_at(script, &file, OP_LEN * 16, cases);
    // The same batch again, and to where the nodes are.
    script.load_in(&file, file.len() + OP_LEN * 30);
    for parent in [HEADING, HEADING, 258, HEADING, 0, 270] {
        script.push(batch(4, parent, &[261, 262, 274]));
        judge(script);
    }
}

/// Nodes of one chain to a parent in another. From above, each move takes along
/// what is below it, which is then deeper than the parent: its move is upward,
/// whatever it was in the first tree. From below, each stays as deep as it was.
fn columns_of_a_chain(script: &mut Script) {
    let length = 12;
    let ops = chains(2, length);
    let file = file_of(&ops);
    let node = |chain: usize, depth: usize| ops[chain * length + depth - 1].node;
    let column = |depths: &[usize]| -> Vec<u16> {
        let nodes = depths.iter().map(|&depth| node(0, depth));
        nodes.collect()
    };
    let falling: Vec<usize> = (1..=length).rev().collect();
    let rising: Vec<usize> = (1..=length).collect();
    let mut cases = vec![];
    for depth in [0, 1, 2, 5, 6, 11, 12] {
        let parent = if depth == 0 { 0 } else { node(1, depth) };
        for depths in [
            &rising[..],
            &falling,
            &[6, 7, 8],
            &[8, 7, 6],
            &[5, 6, 7, 4],
            &[1, 12, 6],
            &[12, 1, 6],
            &[7, 7, 6, 6, 7],
        ] {
            cases.push(batch(6, parent, &column(depths)));
        }
    }
    // In one and the same chain: to what is above, near and far, and to what is
    // below, which is refused.
    for depth in [1, 2, 5, 6] {
        for depths in [&[7, 8, 9][..], &[9, 8, 7], &[12, 6, 7], &[8, 7, 5], &[8, 1]] {
            cases.push(batch(6, node(0, depth), &column(depths)));
        }
    }
    each_at(script, &file, OP_LEN * 16, cases);
    // The trees that such batches leave.
    for depths in [&rising[..], &falling, &[6, 7, 8]] {
        script.load_in(&file, file.len() + OP_LEN * 30);
        script.push(batch(6, node(1, 6), &column(depths)));
        judge(script);
        script.climb(node(0, 12), node(1, 1));
        script.climb(node(0, 7), node(0, 6));
        script.push(batch(2, node(0, 12), &[node(1, 12), node(1, 7)]));
        judge(script);
    }
}

/// Every list of two nodes, and every parent, in small trees.
fn small_trees(script: &mut Script) {
    for ops in [p1(), unremoved(), p10(), p12(), p11()] {
        let tree = Tree::judge(&log_of(&ops));
        let nodes: Vec<u16> = tree.nodes().collect();
        let mut cases = vec![];
        for &parent in nodes.iter().chain(&[0]) {
            for &one in &nodes {
                for &two in &nodes {
                    cases.push(batch(7, parent, &[one, two]));
                }
            }
        }
        // In the greater trees there are many that are alike.
        let step = if nodes.len() > 2 { 3 } else { 1 };
        each_at(
            script,
            &file_of(&ops),
            OP_LEN * 2,
            cases.into_iter().step_by(step),
        );
    }
    let nodes = [257, 258, 259, 260, 261, 262];
    let mut cases = vec![];
    for parent in [0, 257, 259, 260, 261, 262] {
        for (place, &one) in nodes.iter().enumerate() {
            cases.push(batch(4, parent, &[one, nodes[(place + 1) % 6]]));
            cases.push(batch(4, parent, &[262, one, nodes[(place + 4) % 6]]));
        }
    }
    each_at(script, &file_of(&marked()), OP_LEN * 3, cases.clone());
    let cases = cases.into_iter().step_by(2);
    each_at(script, &file_of(&unmet()), OP_LEN * 3, cases);
}

/// 1 comes first, whatever the list is.
fn unsound(script: &mut Script) {
    let lists: [(u8, &[u16], usize); 7] = [
        (1, &[], 0),
        (1, &[257, 258], 28),
        (1, &[257], 13),
        (9, &[257], 14),
        (0, &[], 0),
        (1, &[0; 17], 600),
        (1, &[4000], 14),
    ];
    let file = file_of(&p1());
    let mut files = vec![vec![], vec![0; 31], vec![0; 32], file_of(&mutual())];
    files.push(file[..87].to_vec());
    files.push(file[..31].to_vec());
    for file in files {
        script.load(&file);
        for (replica, nodes, room) in lists {
            script.push(lent(replica, 0, nodes, room));
        }
    }
    let rng = &mut Rng::new(101);
    for ops in small_logs() {
        let file = [file_of(&ops), vec![0; 3 * OP_LEN]].concat();
        for _ in 0..9 {
            script.load(&damage::random(rng, &file));
            let (replica, nodes, room) = rng.pick(&lists);
            let parent = rng.pick(&[0, 0, 258, 259, 1026]);
            script.push(lent(replica, parent, nodes, room));
        }
    }
}

/// A batch, and then its moves one by one at the same file: the buffers are alike,
/// unless a move is refused.
fn one_by_one(script: &mut Script) {
    let file = file_of(&rack());
    for (parent, nodes) in [
        (HEADING, &[261, 275, 274, 271, 261][..]),
        (278, &[273, 262, 263]),
        (HEADING, &[261, 260, 262]),
        (0, &[278, 274, 273, 272]),
        (276, &[262, 261, 263]),
    ] {
        script.load_in(&file, file.len() + OP_LEN * 6);
        script.push(batch(7, parent, nodes));
        judge(script);
        script.load_in(&file, file.len() + OP_LEN * 6);
        for &node in nodes {
            script.push(batch(7, parent, &[node]));
        }
        script.load_in(&file, file.len() + OP_LEN * 6);
        for &node in nodes {
            script.push(Case::Move(7, node, parent, ROOM));
        }
        judge(script);
    }
}

/// What a batch can be made of: the added nodes of a sound buffer.
struct Choice {
    tree: Tree,
    nodes: Vec<u16>,
    unmarked: Vec<u16>,
}

impl Choice {
    fn of(buffer: &[u8]) -> Choice {
        let log = Log::open(buffer).unwrap_or_default();
        let tree = Tree::judge(&log);
        let nodes: Vec<u16> = tree.nodes().collect();
        let is_unmarked = |node: &&u16| log.knowledge(&log.held(), **node) == Knowledge::Unmarked;
        let unmarked = nodes.iter().filter(is_unmarked).copied().collect();
        Choice {
            tree,
            nodes,
            unmarked,
        }
    }

    /// Mostly one that takes new work, and often a deep one.
    fn parent(&self, rng: &mut Rng) -> u16 {
        match rng.below(12) {
            0 if !self.nodes.is_empty() => rng.pick(&self.nodes),
            1 | 2 => 0,
            _ if self.unmarked.is_empty() => 0,
            _ => {
                let few = [(); 2].map(|()| rng.pick(&self.unmarked));
                let deepest = few.into_iter().max_by_key(|&node| self.tree.depth(node));
                deepest.unwrap_or(0)
            }
        }
    }

    /// So many nodes, or as many as there are, that can go under the parent: each
    /// once, or any again, in any order, from above or from below.
    fn good(&self, rng: &mut Rng, parent: u16, count: usize) -> Vec<u16> {
        let path: Vec<u16> = self.tree.path(parent).collect();
        let mut movable = self.unmarked.clone();
        movable.retain(|node| !path.contains(node));
        if movable.is_empty() {
            return vec![];
        }
        rng.shuffle(&mut movable);
        if rng.one_in(4) {
            return (0..count).map(|_| rng.pick(&movable)).collect();
        }
        movable.truncate(count);
        match rng.below(4) {
            0 => movable.sort_by_key(|&node| self.tree.depth(node)),
            1 => movable.sort_by_key(|&node| SLOTS - self.tree.depth(node)),
            _ => {}
        }
        movable
    }

    /// A list that is accepted, but one in three has a node of any sort in some place.
    fn list(&self, rng: &mut Rng, parent: u16) -> Vec<u16> {
        let count = rng.pick(&[0, 1, 2, 2, 3, 3, 4, 5, 7, 9, 15, 16, 16]);
        let mut nodes = self.good(rng, parent, count);
        if rng.one_in(3) && nodes.len() < MAX_BATCH {
            let node = match rng.below(6) {
                0 => rng.pick(&[0, 1, 256, 2303, 2304, 65535]),
                1 => parent,
                _ if self.nodes.is_empty() => 0,
                _ => rng.pick(&self.nodes),
            };
            nodes.insert(rng.below(nodes.len() + 1), node);
        }
        nodes
    }
}

/// Some batch of a replica at the script's buffer.
fn batch_here(script: &mut Script, rng: &mut Rng, replica: u8) {
    let choice = Choice::of(script.buffer());
    let parent = choice.parent(rng);
    let nodes = choice.list(rng, parent);
    let exact = OP_LEN * nodes.len();
    let room = match rng.below(16) {
        0 => exact.saturating_sub(1 + rng.below(14)),
        1 | 2 => exact + rng.below(40),
        _ => exact,
    };
    script.push(lent(replica, parent, &nodes, room));
}

/// Batches one after another in random logs, with enough room and with little.
fn random_logs(script: &mut Script) {
    for seed in 0..84 {
        let rng = &mut Rng::new(10_100 + seed);
        let style = rng.pick(&[Style::moves as fn(usize, usize) -> Style, Style::mixed]);
        let count = rng.pick(&[4, 8, 15, 30, 30, 60, 60, 120]);
        let style = style(1 + rng.below(8), count + rng.below(10));
        let file = file_of(&World::random(rng, style).ops);
        let room = rng.pick(&[5, 20, 40, 60, 60]);
        script.load_in(&file, file.len() + OP_LEN * room + rng.below(OP_LEN));
        for _ in 0..6 {
            let replica = 1 + rng.below(REPLICAS) as u8;
            batch_here(script, rng, replica);
        }
        judge(script);
    }
}

/// Chains that were moved along and across each other: most lists name nodes above
/// and below each other.
fn deep_logs(script: &mut Script) {
    for seed in 0..14 {
        let rng = &mut Rng::new(10_300 + seed);
        let chains = 1 + rng.below(3);
        let deep = Deep {
            chains,
            length: (30 + rng.below(180)) / chains,
            moves: rng.below(40),
        };
        let file = file_of(&World::deep(rng, deep).ops);
        script.load_in(&file, file.len() + OP_LEN * 70);
        for _ in 0..10 {
            let replica = 1 + rng.below(REPLICAS) as u8;
            batch_here(script, rng, replica);
        }
        judge(script);
    }
}

/// What another replica did meanwhile, by its first ops at the same vector; 1025 to
/// 1030 are siblings, and replica 5 has put 1025, 1026 and 1027 under 1030.
fn meanwhile(replica: u8) -> Vec<Vec<Op>> {
    let vector = |own: u8| {
        let mut vector = [0; REPLICAS];
        vector[3] = 6;
        vector[usize::from(replica) - 1] = own;
        vector
    };
    let (one, two, three) = (&vector(0), &vector(1), &vector(2));
    vec![
        // A rival of the first move, of the second, and of the third.
        vec![down(replica, 1025, 1028, one)],
        vec![up(replica, 1025, 1028, one)],
        vec![add(replica, 0, one), down(replica, 1026, 1028, two)],
        vec![
            add(replica, 0, one),
            remove(replica, 1029, two),
            up(replica, 1027, 1028, three),
        ],
        // Of another timestamp: no rival.
        vec![down(replica, 1026, 1028, one)],
        vec![add(replica, 0, one), down(replica, 1025, 1028, two)],
        // The parent goes under a node of the batch, before or after that is moved.
        vec![down(replica, 1030, 1025, one)],
        vec![up(replica, 1030, 1025, one)],
        vec![down(replica, 1030, 1026, one)],
        vec![down(replica, 1030, 1027, one)],
        vec![add(replica, 0, one), down(replica, 1030, 1026, two)],
        vec![add(replica, 0, one), up(replica, 1030, 1026, two)],
        vec![add(replica, 0, one), down(replica, 1030, 1025, two)],
        // Under two of them, one after the other.
        vec![
            down(replica, 1030, 1027, one),
            up(replica, 1030, 1026, two),
            up(replica, 1030, 0, three),
        ],
        // A node of the batch takes the parent along.
        vec![
            down(replica, 1030, 1028, one),
            down(replica, 1028, 1027, two),
        ],
        // Removed meanwhile: the moves stay.
        vec![remove(replica, 1026, one)],
        vec![remove(replica, 1030, one), remove(replica, 1025, two)],
        vec![down(replica, 1025, 1028, one), remove(replica, 1028, two)],
    ]
}

/// A batch is whole at issue; then what others did comes, and each move has an
/// outcome of its own.
fn later_outcomes(script: &mut Script) {
    let file = file_of(&adds(4, 6));
    for replica in [2, 8] {
        for others in meanwhile(replica) {
            script.load_in(&file, 260);
            script.push(batch(5, 1030, &[1025, 1026, 1027]));
            judge(script);
            for op in &others {
                script.deliver(&op.bytes());
            }
            judge(script);
            // Now all is met.
            script.push(batch(5, 1030, &[1027, 1026, 1025]));
            script.push(batch(5, 1030, &[1029, 1028]));
            // The other way round: the batch's ops come to what was done there.
            let mut issued = ops(script.buffer());
            issued.retain(|op| op.replica == 5);
            let there = file_of(&[adds(4, 6), others].concat());
            script.load_in(&there, 260);
            for place in [1, 0, 1, 2] {
                script.deliver(&issued[place].bytes());
            }
            judge(script);
        }
    }
}

/// Two batches that have not met: of the same nodes to other parents, of each
/// other's parent, in any order of arrival.
fn later_batches(script: &mut Script) {
    let file = file_of(&adds(4, 8));
    let mine = [1025, 1026, 1027, 1028];
    for (parent, theirs) in [
        (1032, &[1025, 1026, 1027, 1028][..]),
        (1032, &[1028, 1027, 1026, 1025]),
        (1032, &[1031, 1025]),
        (1026, &[1031]),
        (1026, &[1029, 1031]),
        (1026, &[1029, 1030, 1031]),
        (1025, &[1031, 1026]),
        (1028, &[1031, 1027, 1025]),
        (1027, &[1030, 1025, 1031]),
        (1031, &mine),
    ] {
        for replica in [1, 8] {
            script.load_in(&file, 400);
            script.push(batch(replica, parent, theirs));
            let mut issued = ops(script.buffer());
            issued.retain(|op| op.replica == replica);
            script.load_in(&file, 400);
            script.push(batch(5, 1031, &mine));
            for op in issued {
                script.deliver(&op.bytes());
                judge(script);
            }
            script.push(batch(5, 0, &mine));
            judge(script);
        }
    }
}

/// Batches travel in bundles, and a batch may follow where one was opened.
fn bundles(script: &mut Script) {
    for seed in 0..8 {
        let rng = &mut Rng::new(10_400 + seed);
        let style = Style::mixed(1 + rng.below(4), 20);
        let common = World::random(rng, style).ops;
        let held = log_of(&common).held();
        let file = file_of(&common);
        let mut there: Vec<u8> = vec![];
        for replica in [3, 6] {
            script.load_in(&file, file.len() + OP_LEN * 70);
            batch_here(script, rng, replica);
            issue_here(script, rng, replica);
            batch_here(script, rng, replica);
            let bundle = bundle_for(script.buffer(), held);
            script.push(Case::MakeBundle(held, bundle.len() as u16));
            if !there.is_empty() {
                script.open(&there);
                judge(script);
                batch_here(script, rng, replica);
            }
            there = bundle;
        }
        // A part of a batch is a bundle too.
        script.load_in(&file, file.len() + OP_LEN * 70);
        script.open(&there);
        batch_here(script, rng, 3);
        judge(script);
    }
    // The first moves of a batch without the last, and the last without the first.
    let file = file_of(&rack());
    script.load_in(&file, file.len() + OP_LEN * 8);
    script.push(batch(4, HEADING, &GOOD[..4]));
    let mut issued = ops(script.buffer());
    issued.retain(|op| op.replica == 4);
    for part in [&issued[..2], &issued[2..], &issued[..0], &issued[..]] {
        script.load_in(&file, file.len() + OP_LEN * 8);
        script.open(&bundle_of(part));
        script.push(batch(4, HEADING, &GOOD[4..7]));
        script.push(batch(5, HEADING, &GOOD[..2]));
    }
}

/// An op that waits for the moves of a batch goes with the next delivery; a page
/// does not go with a batch, and is untrue after it.
fn holdbacks_and_pages(script: &mut Script) {
    let held = rack();
    let file = file_of(&held);
    for count in [1, 2, 3] {
        let waiting = add(7, HEADING, &[22, 1, 0, count]);
        script.load_in(&file, file.len() + OP_LEN * 6);
        script.deliver_holdback(&waiting.bytes(), &holdback_of(&[]));
        script.push(batch(4, HEADING, &GOOD[..2]));
        script.deliver_next(&add(8, 0, &[]).bytes());
        judge(script);
        script.push(batch(8, HEADING, &[1793, GOOD[3]]));
    }
    for nodes in [&[][..], &GOOD[..1], &GOOD[..3], &[GOOD[0], 0]] {
        script.load_in(&file, file.len() + OP_LEN * 6);
        let page = Tables::of(&log_of(&held));
        script.push(Case::AddPage(4, 0, ROOM, page));
        script.push(batch(4, HEADING, nodes));
        script.deliver_on(&add(8, 0, &[]).bytes());
        script.deliver_on(&add(7, 0, &[22, 1, 0, 1]).bytes());
        judge(script);
    }
}

/// A node of a list, or the parent, is removed by a replica that is met: from then
/// on it is 11. The moves that were issued before stay.
fn removals_come(script: &mut Script) {
    let file = file_of(&rack());
    for removed in [261, 262, HEADING, 258, 270] {
        for remover in [2, 4, 8] {
            script.load_in(&file, file.len() + OP_LEN * 14);
            script.push(batch(4, HEADING, &[261, 262, 263]));
            if remover == 4 {
                script.push(Case::Remove(4, removed, ROOM));
            } else {
                let counts = if remover == 2 { &[22, 1][..] } else { &[22] };
                script.deliver(&remove(remover, removed, counts).bytes());
            }
            script.push(batch(4, HEADING, &[263, 262, 261]));
            script.push(batch(4, HEADING, &[264, 265]));
            script.push(batch(4, 0, &[263, 264, 261]));
            script.push(batch(4, 270, &[]));
            judge(script);
        }
    }
}

/// Replicas that issue adds, moves and batches apart, and hear of each other until
/// all have the same.
fn exchanges(script: &mut Script) {
    for seed in 0..3 {
        let rng = &mut Rng::new(10_500 + seed);
        let replicas = 2 + rng.below(3);
        let mut files: Vec<Vec<u8>> = vec![file_of(&turns(10)); replicas];
        for _ in 0..4 * replicas {
            let at = rng.below(replicas);
            let from = rng.below(replicas);
            visit(script, &mut files[at], |script| {
                for _ in 0..2 {
                    issue_here(script, rng, at as u8 + 1);
                    batch_here(script, rng, at as u8 + 1);
                }
            });
            if rng.one_in(2) {
                hear(script, &mut files, at, from);
            }
        }
        while files.iter().any(|file| *file != files[0]) {
            for at in 0..replicas {
                let from = rng.below(replicas);
                hear(script, &mut files, at, from);
            }
        }
        script.load(&files[0]);
        judge(script);
    }
}

/// Calls at one replica: its file is loaded, and kept afterwards.
fn visit(script: &mut Script, file: &mut Vec<u8>, calls: impl FnOnce(&mut Script)) {
    script.load_in(file, HEADER_LEN + OP_LEN * 500);
    calls(script);
    *file = file_of(&ops(script.buffer()));
}

/// What one replica lacks of another's ops comes in a bundle.
fn hear(script: &mut Script, files: &mut [Vec<u8>], at: usize, from: usize) {
    if files[at] == files[from] {
        return;
    }
    let held = log_of(&ops(&files[at])).held();
    let bundle = bundle_for(&files[from], held);
    visit(script, &mut files[at], |script| {
        script.open(&bundle);
        judge(script);
    });
}

/// Batches in logs that are nearly as long as can be, up to the last op.
fn large_logs(script: &mut Script) {
    let rng = &mut Rng::new(107);
    two_long_chains(script);
    the_longest_chain(script);
    for style in [Style::moves as fn(usize, usize) -> Style, Style::mixed] {
        let all = full(rng, style);
        script.load_in(&file_of(&all[..1900]), MAX_FILE);
        for step in 0..24 {
            batch_here(script, rng, 1 + step % 8);
        }
        judge(script);
    }
    // Shallow and wide: all nodes under the root.
    let mut ops = adds(1, MAX_SEQUENCE);
    ops.extend(adds(2, MAX_SEQUENCE));
    let file = file_of(&ops);
    script.load_in(&file, file.len() + OP_LEN * 100);
    let wide: Vec<u16> = (258..=511).chain(513..=767).collect();
    for step in 0..6 {
        let nodes: Vec<u16> = wide
            .iter()
            .skip(90 * step)
            .step_by(5)
            .take(16)
            .copied()
            .collect();
        script.push(batch(3 + step as u8, 257, &nodes));
    }
    script.push(batch(1, 257, &wide[..2]));
    judge(script);
}

/// Each replica has 240 ops: 15 more of each fill the log.
fn two_long_chains(script: &mut Script) {
    let length = 960;
    let ops = chains(2, length);
    let node = |chain: usize, depth: usize| ops[chain * length + depth - 1].node;
    script.load_in(&file_of(&ops), MAX_FILE);
    for replica in 1..=8 {
        // From above, from below, and both, to a parent that is as deep as some.
        let start = 100 * usize::from(replica);
        let mut depths: Vec<usize> = (start..start + 16).collect();
        match replica % 3 {
            0 => depths.reverse(),
            1 => depths.rotate_left(5),
            _ => {}
        }
        let nodes: Vec<u16> = depths.iter().map(|&depth| node(0, depth)).collect();
        let parent = node(1, start + 8);
        script.push(batch(replica, parent, &nodes));
        let above = [&nodes[..14], &[node(1, 1)]].concat();
        script.push(batch(replica, parent, &above));
        // The last of all has room for 14 first.
        if replica == 8 {
            script.resize(MAX_FILE - 1);
            script.push(batch(replica, parent, &nodes[..15]));
            script.resize(MAX_FILE);
        }
        script.push(batch(replica, parent, &nodes[..15]));
        script.push(batch(replica, parent, &nodes[..1]));
    }
    script.push(batch(8, 0, &[]));
    judge(script);
}

/// A chain of 2,024 nodes, and 16 moves: the deepest to the first, and the first
/// cannot go under the deepest.
fn the_longest_chain(script: &mut Script) {
    let ops = &longest_chain()[..2024];
    let node = |depth: usize| ops[depth - 1].node;
    script.load_in(&file_of(ops), MAX_FILE);
    let deepest: Vec<u16> = (2009..=2024).map(node).collect();
    script.push(batch(8, node(2024), &[node(2023)]));
    script.push(batch(8, node(2000), &[&deepest[..15], &[node(1)]].concat()));
    script.push(batch(8, node(1), &[&deepest[..], &[node(9)]].concat()));
    script.push(batch(7, node(1), &deepest));
    script.resize(MAX_FILE - 1);
    script.push(batch(8, node(1), &deepest));
    script.resize(MAX_FILE);
    script.push(batch(8, node(1), &deepest));
    script.push(batch(8, node(1), &deepest[..1]));
    script.push(batch(8, node(1), &[]));
    judge(script);
    for depth in [2024, 2010, 2008] {
        script.climb(node(depth), node(1));
    }
}
