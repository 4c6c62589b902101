//! The climb from a parent to a node: its rows, its laws, how far it looks, and
//! the moves that rest on it.

mod common;

use common::*;
use outline_model::cases::examples::*;
use outline_model::cases::world::{full, Deep, Style, World};
use outline_model::rng::Rng;
use outline_model::*;

fn met(steps: usize) -> Climb {
    Climb { met: true, steps }
}

fn missed(steps: usize) -> Climb {
    Climb { met: false, steps }
}

fn tree_of(ops: &[Op]) -> Tree {
    Tree::judge(&log_of(ops))
}

/// The root and the added nodes.
fn ends(tree: &Tree) -> Vec<u16> {
    std::iter::once(0).chain(tree.nodes()).collect()
}

fn random_world(rng: &mut Rng, most: usize) -> Vec<Op> {
    let style = rng.pick(&[Style::moves as fn(usize, usize) -> Style, Style::mixed]);
    let style = style(1 + rng.below(8), rng.below(most));
    World::random(rng, style).ops
}

fn deep_world(rng: &mut Rng) -> Vec<Op> {
    let chains = 1 + rng.below(3);
    let deep = Deep {
        chains,
        length: 20 + rng.below(60),
        moves: rng.below(40),
    };
    World::deep(rng, deep).ops
}

// ---- rows

/// 257 > 258 > 259, 260 > 261, and 262.
#[test]
fn rows() {
    let tree = tree_of(&unmet());
    for (parent, node, climb) in [
        // The parent is the node.
        (257, 257, met(0)),
        (259, 259, met(0)),
        // It is a child, or below a child.
        (258, 257, met(1)),
        (259, 258, met(1)),
        (259, 257, met(2)),
        (261, 260, met(1)),
        // The root lies below none but itself.
        (0, 257, missed(0)),
        (0, 259, missed(0)),
        (0, 262, missed(0)),
        // Another branch, or what is below: the parent's depth.
        (262, 257, missed(1)),
        (257, 262, missed(1)),
        (257, 258, missed(1)),
        (257, 259, missed(1)),
        (258, 259, missed(2)),
        (261, 257, missed(2)),
        (259, 260, missed(3)),
        // All lie below the root.
        (0, 0, met(0)),
        (257, 0, met(1)),
        (261, 0, met(2)),
        (259, 0, met(3)),
    ] {
        assert_eq!(tree.climb_to(parent, node), climb, "{parent} to {node}");
    }
}

#[test]
fn the_tree_is_that_of_all_moves() {
    // Only the second of two moves is applied: 257 under 258.
    let tree = tree_of(&p1());
    assert_eq!(tree.climb_to(257, 258), met(1));
    assert_eq!(tree.climb_to(258, 257), missed(1));
    // c under a, b under c; a stays under the root.
    let tree = tree_of(&p10());
    assert_eq!(tree.climb_to(1026, 1025), met(2));
    assert_eq!(tree.climb_to(1025, 1026), missed(1));
    // A rival was first: 770 is under the root.
    let tree = tree_of(&p12());
    assert_eq!(tree.climb_to(770, 769), missed(1));
    assert_eq!(tree.climb_to(771, 769), met(1));
    // Marks are nothing to a climb: 260 > 258 > 259 > 770, and 257.
    let tree = tree_of(&removals());
    assert_eq!(tree.climb_to(770, 260), met(3));
    assert_eq!(tree.climb_to(770, 257), missed(4));
}

#[test]
fn no_nodes_but_the_root() {
    assert_eq!(tree_of(&[]).climb_to(0, 0), met(0));
}

#[test]
fn the_longest_chain() {
    let chain: Vec<u16> = longest_chain().iter().map(|op| op.node).collect();
    let tree = tree_of(&longest_chain());
    for (place, &node) in chain.iter().enumerate() {
        let up = 2039 - place;
        assert_eq!(tree.climb_to(2303, node), met(up));
        assert_eq!(tree.climb_to(node, 257), met(place));
        assert_eq!(tree.climb_to(node, 0), met(place + 1));
        assert_eq!(tree.climb_to(0, node), missed(0));
        if place > 0 {
            assert_eq!(tree.climb_to(257, node), missed(1));
            assert_eq!(tree.climb_to(node, chain[place - 1]), met(1));
            assert_eq!(tree.climb_to(chain[place - 1], node), missed(place));
        }
    }
}

// ---- laws

/// The laws for every pair; how many were met and how many not.
fn check_laws(tree: &Tree) -> [usize; 2] {
    let mut seen = [0; 2];
    let ends = ends(tree);
    for &parent in &ends {
        let path: Vec<u16> = tree.path(parent).collect();
        let depth = path.len() - 1;
        assert_eq!(depth, tree.depth(parent));
        for &node in &ends {
            let climb = tree.climb_to(parent, node);
            assert_eq!(climb.met, path.contains(&node));
            let above = if climb.met { tree.depth(node) } else { 0 };
            assert_eq!(climb.steps, depth - above);
            assert!(climb.steps <= depth);
            if climb.met {
                assert_eq!(path[climb.steps], node);
            }
            seen[usize::from(climb.met)] += 1;
        }
        assert_eq!(tree.climb_to(parent, parent), met(0));
        assert_eq!(tree.climb_to(parent, 0), met(depth));
    }
    seen
}

#[test]
fn laws() {
    small_logs().iter().for_each(|ops| {
        check_laws(&tree_of(ops));
    });
    let mut seen = [0; 2];
    for seed in 0..300 {
        let rng = &mut Rng::new(90_000 + seed);
        let ops = match seed % 3 {
            0 => deep_world(rng),
            _ => random_world(rng, 80),
        };
        let [missed, met] = check_laws(&tree_of(&ops));
        seen = [seen[0] + missed, seen[1] + met];
    }
    assert!(seen.iter().all(|&count| count > 100_000), "{seen:?}");
}

#[test]
fn laws_in_full_logs() {
    let rng = &mut Rng::new(91);
    check_laws(&tree_of(&full(rng, Style::moves)));
}

/// Two climbs that meet follow on one another.
#[test]
fn steps_add_up() {
    for seed in 0..60 {
        let rng = &mut Rng::new(92_000 + seed);
        let tree = tree_of(&deep_world(rng));
        let ends = ends(&tree);
        for _ in 0..200 {
            let parent = rng.pick(&ends);
            let path: Vec<u16> = tree.path(parent).collect();
            let middle = rng.below(path.len());
            let top = middle + rng.below(path.len() - middle);
            let [first, second] = [(parent, path[middle]), (path[middle], path[top])]
                .map(|(parent, node)| tree.climb_to(parent, node));
            assert_eq!((first, second), (met(middle), met(top - middle)));
            assert_eq!(tree.climb_to(parent, path[top]), met(top));
        }
    }
}

// ---- how far it looks

/// No entry leads on from a spoiled one: there is no such slot.
const SPOILED: u16 = 65535;

/// Only what is below the node on the way to it is left, or the way to the root,
/// if the node is not met. The answer is the same.
fn check_spoiled(tree: &mut Tree, parent: u16, node: u16) {
    let climb = tree.climb_to(parent, node);
    let way: Vec<u16> = tree.path(parent).take(climb.steps).collect();
    let whole = tree.parents.clone();
    tree.parents.fill(SPOILED);
    for &at in &way {
        tree.parents[slot_of(at)] = whole[slot_of(at)];
    }
    assert_eq!(tree.climb_to(parent, node), climb);
    tree.parents = whole;
}

#[test]
fn it_does_not_look_past_the_node() {
    for ops in small_logs() {
        let mut tree = tree_of(&ops);
        let ends = ends(&tree);
        for &parent in &ends {
            ends.iter()
                .for_each(|&node| check_spoiled(&mut tree, parent, node));
        }
    }
    for seed in 0..60 {
        let rng = &mut Rng::new(93_000 + seed);
        let mut tree = tree_of(&deep_world(rng));
        let ends = ends(&tree);
        for _ in 0..200 {
            let parent = rng.pick(&ends);
            let path: Vec<u16> = tree.path(parent).collect();
            for node in [rng.pick(&path), rng.pick(&ends)] {
                check_spoiled(&mut tree, parent, node);
            }
        }
    }
}

/// Entries that lead round in a circle above the node are not met either.
#[test]
fn a_circle_above_the_node() {
    let chain: Vec<u16> = longest_chain().iter().map(|op| op.node).collect();
    let mut tree = tree_of(&longest_chain());
    for place in [0, 1, 1000, 2039] {
        tree.parents[slot_of(chain[place])] = chain[2039];
        assert_eq!(tree.climb_to(chain[2039], chain[place]), met(2039 - place));
        tree.parents[slot_of(chain[place])] = if place == 0 { 0 } else { chain[place - 1] };
    }
}

// ---- moves

/// Issues a move on the log of these ops, and hands back the kind, if accepted.
fn issued(ops: &[Op], node: u16, parent: u16) -> Result<u8, u8> {
    let file = file_of(ops);
    let mut buffer = in_buffer(&file, file.len() + 14);
    match issue_checked(&mut buffer, 3, Issue::Move(node, parent)) {
        (Accepted(_), op) => Ok(op[0]),
        (Refused(number), _) => Err(number),
        other => panic!("{other:?}"),
    }
}

#[test]
fn a_move_to_what_is_below_is_10_near_and_far() {
    let ops = turns(600);
    let node = |depth: usize| match depth {
        0 => 0,
        _ => ops[depth - 1].node,
    };
    for depth in [1, 2, 255, 256, 257, 300, 598] {
        for below in [depth + 1, depth + 2, (depth + 600) / 2, 600] {
            assert_eq!(issued(&ops, node(depth), node(below)), Err(10));
        }
        // Upwards in the same chain there is always less depth.
        for above in [0, depth / 2, depth.saturating_sub(2), depth - 1] {
            assert_eq!(issued(&ops, node(depth), node(above)), Ok(3));
        }
    }
}

#[test]
fn the_kind_at_equal_and_neighbouring_depths() {
    let length = 520;
    let ops = chains(2, length);
    let node = |chain: usize, depth: usize| ops[chain * length + depth - 1].node;
    for depth in [2, 3, 128, 254, 255, 256, 257, 511, 512, 519] {
        for other in [1, depth - 1, depth, depth + 1, length] {
            let kind = if depth > other { 3 } else { 4 };
            assert_eq!(issued(&ops, node(0, depth), node(1, other)), Ok(kind));
            assert_eq!(issued(&ops, node(1, depth), node(0, other)), Ok(kind));
        }
    }
}

/// Two that did not meet, each with the first node of a chain under the last of
/// the other: the higher replica is first, and the other's climb finds its node.
#[test]
fn a_circle_of_chains_is_left_out() {
    let length = 1000;
    let mut ops = chains(2, length);
    let held = log_of(&ops).held();
    let [first, second] = [0, length].map(|start| (ops[start].node, ops[start + length - 1].node));
    ops.push(down(2, first.0, second.1, &held));
    ops.push(down(7, second.0, first.1, &held));
    let file = file_of(&ops);
    assert_eq!((outcome(&file, 7, 251), outcome(&file, 2, 251)), (1, 3));
    let tree = tree_of(&ops);
    assert_eq!(tree.climb_to(second.1, first.0), met(1999));
    assert_eq!(tree.climb_to(first.1, second.0), missed(1000));
}

// ---- the deep worlds

/// They are of use only if they are sound and deep, and if moves are left out.
#[test]
fn deep_worlds_are_deep() {
    let (mut outcomes, mut depths) = ([0; 4], 0);
    for seed in 0..40 {
        let rng = &mut Rng::new(94_000 + seed);
        let deep = Deep {
            chains: 1 + rng.below(2),
            length: 200,
            moves: 40,
        };
        let ops = World::deep(rng, deep).ops;
        assert_eq!(ops.len(), deep.nodes() + deep.moves);
        assert!(Log::open(&file_of(&ops)).is_some());
        let tree = tree_of(&ops);
        depths += tree.nodes().map(|node| tree.depth(node)).max().unwrap();
        for &outcome in &tree.outcomes {
            outcomes[usize::from(outcome)] += 1;
        }
    }
    assert!(depths > 40 * 100, "{depths}");
    assert!(outcomes[3] > 400, "{outcomes:?}");
}

/// Also where all replicas come to their last op.
#[test]
fn deep_worlds_end() {
    let deep = Deep {
        chains: 2,
        length: 1000,
        moves: 40,
    };
    let ops = World::deep(&mut Rng::new(95), deep).ops;
    assert_eq!(file_of(&ops).len(), MAX_FILE);
    assert!(Log::open(&file_of(&ops)).is_some());
}
