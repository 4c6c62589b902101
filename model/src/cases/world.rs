//! Random sound logs: replicas that hear of each other now and then.

use super::damage;
use super::examples::{chains, holdback_with, log_of};
use crate::op::{at_most, join, node_number, replica_index, MAX_SEQUENCE, OP_LEN, REPLICAS};
use crate::rng::Rng;
use crate::{Kind, Op, Vector, HOLDBACK_PLACES};

/// How a world grows.
#[derive(Clone, Copy)]
pub struct Style {
    pub replicas: usize,
    pub ops: usize,
    /// Adds stop at this number, so that moves meet on few nodes.
    pub nodes: usize,
    /// One op in so many is a remove.
    pub remove_one_in: usize,
    /// Before one op in so many the replica hears of another one's op.
    pub hear_one_in: usize,
}

impl Style {
    /// Few nodes and rare meetings: many moves at one timestamp.
    pub fn moves(replicas: usize, ops: usize) -> Style {
        Style {
            replicas,
            ops,
            nodes: 3 + ops / 12,
            remove_one_in: 15,
            hear_one_in: 4,
        }
    }

    /// Half of the ops add.
    pub fn mixed(replicas: usize, ops: usize) -> Style {
        Style {
            nodes: ops / 2,
            remove_one_in: 6,
            hear_one_in: 2,
            ..Style::moves(replicas, ops)
        }
    }
}

/// How a deep world grows: chains side by side, and then moves.
#[derive(Clone, Copy)]
pub struct Deep {
    pub chains: usize,
    /// Nodes of each chain.
    pub length: usize,
    /// With the nodes at most 2,040.
    pub moves: usize,
}

impl Deep {
    /// Nodes of all chains; their adds are the first ops.
    pub fn nodes(&self) -> usize {
        self.chains * self.length
    }

    /// The places, among the adds, of a node and of a new parent for it; none is
    /// the root. The parent is just below the node or far below it, just above it,
    /// in the next chain at about its depth, or now and then far above.
    pub fn places(&self, rng: &mut Rng) -> (usize, Option<usize>) {
        let node = rng.below(self.nodes());
        let near = 1 + rng.below(3);
        let far = 1 + rng.below(self.length);
        let last = self.nodes() - 1;
        let parent = match rng.below(12) {
            0..=2 => last.min(node + near),
            3..=6 => last.min(node + far),
            7 | 8 => node.saturating_sub(near),
            9 | 10 => (node + self.length + near - 2) % self.nodes(),
            // Few of these, since they make the tree shallow.
            _ => node.saturating_sub(far),
        };
        (node, (parent != node).then_some(parent))
    }
}

/// Ops in an order in which each comes after all it counts.
pub struct World {
    pub ops: Vec<Op>,
    nodes: Vec<u16>,
    seen: [Vector; REPLICAS],
}

impl World {
    pub fn random(rng: &mut Rng, style: Style) -> World {
        let mut world = World {
            ops: vec![],
            nodes: vec![],
            seen: [[0; REPLICAS]; REPLICAS],
        };
        // The seats of fewer than eight replicas are drawn too.
        let mut replicas: Vec<u8> = (1..=REPLICAS as u8).collect();
        rng.shuffle(&mut replicas);
        replicas.truncate(style.replicas);
        let most = style.ops.min(MAX_SEQUENCE * replicas.len());
        while world.ops.len() < most {
            let replica = rng.pick(&replicas);
            if rng.one_in(style.hear_one_in) {
                world.hear(rng, replica);
            }
            world.issue(rng, replica, style);
        }
        world
    }

    /// Chains that every replica knows, and then moves by replicas that hear of
    /// each other now and then; some remove instead. The trees of `random` are
    /// shallow: no climb there is long.
    pub fn deep(rng: &mut Rng, deep: Deep) -> World {
        let ops = chains(deep.chains, deep.length);
        let held = log_of(&ops).held();
        let mut world = World {
            nodes: ops.iter().map(|op| op.node).collect(),
            ops,
            seen: [held; REPLICAS],
        };
        while world.ops.len() < deep.nodes() + deep.moves {
            let replica = 1 + rng.below(REPLICAS) as u8;
            let moves = &world.ops[deep.nodes()..];
            if !moves.is_empty() && rng.one_in(3) {
                let heard = rng.pick(moves);
                world.hear_of(replica, &heard);
            }
            world.issue_deep(rng, replica, deep);
        }
        world
    }

    /// The replica hears of some op.
    fn hear(&mut self, rng: &mut Rng, replica: u8) {
        if self.ops.is_empty() {
            return;
        }
        let heard = rng.pick(&self.ops);
        self.hear_of(replica, &heard);
    }

    /// The replica gets an op with all that it counts.
    fn hear_of(&mut self, replica: u8, heard: &Op) {
        let seen = &mut self.seen[usize::from(replica) - 1];
        *seen = join(seen, &heard.vector);
        let count = &mut seen[heard.index()];
        *count = (*count).max(heard.sequence() as u8);
    }

    /// The kind of a move is free: a delivered one is taken as written. So is one
    /// that names a marked node, whether its replica has met the removal or not.
    fn issue(&mut self, rng: &mut Rng, replica: u8, style: Style) {
        let vector = self.seen[usize::from(replica) - 1];
        let sequence = usize::from(vector[usize::from(replica) - 1]) + 1;
        if sequence > MAX_SEQUENCE {
            return;
        }
        let known = self.known(rng, &vector);
        let wants_add = self.nodes.len() < style.nodes && rng.one_in(2);
        let (kind, node, parent) = match known {
            Some(node) if !wants_add => {
                let parent = self.known(rng, &vector).unwrap_or(0);
                if rng.one_in(style.remove_one_in) {
                    (Kind::Remove, node, 0)
                } else {
                    let kind = rng.pick(&[Kind::Up, Kind::Down]);
                    (kind, node, if parent == node { 0 } else { parent })
                }
            }
            _ => {
                let parent = if rng.one_in(4) { None } else { known };
                let node = node_number(replica, sequence) as u16;
                (Kind::Add, node, parent.unwrap_or(0))
            }
        };
        self.put(Op {
            kind,
            replica,
            node,
            parent,
            vector,
        });
    }

    /// A move along or across the chains, or now and then a remove.
    fn issue_deep(&mut self, rng: &mut Rng, replica: u8, deep: Deep) {
        let vector = self.seen[usize::from(replica) - 1];
        if usize::from(vector[usize::from(replica) - 1]) == MAX_SEQUENCE {
            return;
        }
        let (node, parent) = deep.places(rng);
        let (kind, parent) = match rng.below(12) {
            0 => (Kind::Remove, None),
            _ => (rng.pick(&[Kind::Up, Kind::Down]), parent),
        };
        self.put(Op {
            kind,
            replica,
            node: self.nodes[node],
            parent: parent.map_or(0, |place| self.nodes[place]),
            vector,
        });
    }

    fn put(&mut self, op: Op) {
        if op.kind == Kind::Add {
            self.nodes.push(op.node);
        }
        self.seen[op.index()][op.index()] += 1;
        self.ops.push(op);
    }

    /// Some added node within the vector.
    fn known(&self, rng: &mut Rng, vector: &Vector) -> Option<u16> {
        let within = |node: &u16| {
            let [replica, sequence] = node.to_be_bytes();
            replica_index(replica).is_some_and(|index| sequence <= vector[index])
        };
        let known: Vec<u16> = self.nodes.iter().copied().filter(within).collect();
        (!known.is_empty()).then(|| rng.pick(&known))
    }
}

/// A full log: every replica has issued all it can.
pub fn full(rng: &mut Rng, style: fn(usize, usize) -> Style) -> Vec<Op> {
    World::random(rng, style(REPLICAS, REPLICAS * MAX_SEQUENCE)).ops
}

/// Every order in which each of these ops comes after all it counts, but no more
/// than so many.
pub fn orders(ops: &[Op], most: usize) -> Vec<Vec<Op>> {
    let mut whole = vec![];
    let mut begun = vec![vec![]];
    while let Some(order) = begun.pop().filter(|_| whole.len() < most) {
        let held = log_of(&order).held();
        let can_go =
            |op: &&Op| at_most(&op.vector, &held) && op.sequence() > usize::from(held[op.index()]);
        for &op in ops.iter().filter(can_go) {
            let mut longer = order.clone();
            longer.push(op);
            begun.push(longer);
        }
        if order.len() == ops.len() {
            whole.push(order);
        }
    }
    whole
}

/// What a replica holds of these ops, given in an order in which each comes
/// after all it counts: it lost one in so many, and so all that count that one.
pub fn part(rng: &mut Rng, ops: &[Op], lost_one_in: usize) -> Vec<Op> {
    let mut held = [0; REPLICAS];
    let mut part = vec![];
    for op in ops {
        if at_most(&op.vector, &held) && !rng.one_in(lost_one_in) {
            held[op.index()] += 1;
            part.push(*op);
        }
    }
    part
}

/// What these replicas hold together: their own ops, and all that these count.
pub fn held_by(ops: &[Op], replicas: &[u8]) -> Vec<Op> {
    let mut held = [0; REPLICAS];
    for op in ops.iter().filter(|op| replicas.contains(&op.replica)) {
        held = join(&held, &op.vector);
        held[op.index()] = op.sequence() as u8;
    }
    let within = |op: &&Op| op.sequence() <= usize::from(held[op.index()]);
    ops.iter().filter(within).copied().collect()
}

/// A holdback in good order for a log with these counts. Most that wait there come
/// next, often the last of them first; others are early for long, or never go.
pub fn holdback(rng: &mut Rng, ops: &[Op], held: &Vector) -> Vec<u8> {
    let places = rng.pick(&[0, 1, 3, 8, 20, 31, HOLDBACK_PLACES, HOLDBACK_PLACES]);
    let lacking = |op: &&Op| op.sequence() > usize::from(held[op.index()]);
    let mut next: Vec<Op> = ops.iter().filter(lacking).take(places).copied().collect();
    match rng.below(4) {
        0 => {}
        1 => rng.shuffle(&mut next),
        _ => next.reverse(),
    }
    let mut bodies: Vec<[u8; OP_LEN]> = next.iter().map(Op::bytes).collect();
    if rng.one_in(3) {
        bodies.retain(|_| !rng.one_in(5));
    }
    for _ in 0..rng.pick(&[0, 0, 1, 3, 9]) {
        let at = rng.below(bodies.len() + 1);
        let other = stranger(rng, ops, &bodies);
        bodies.insert(at, other);
    }
    bodies.truncate(places);
    if rng.one_in(2) {
        bodies.resize_with(places, || never(rng));
    }
    holdback_with(&bodies)
}

/// A body that comes twice or is held, a changed one, or noise.
fn stranger(rng: &mut Rng, ops: &[Op], bodies: &[[u8; OP_LEN]]) -> [u8; OP_LEN] {
    let some = match rng.below(3) {
        0 if !bodies.is_empty() => rng.pick(bodies),
        _ if !ops.is_empty() => rng.pick(ops).bytes(),
        _ => never(rng),
    };
    match rng.below(6) {
        0 => std::array::from_fn(|_| rng.byte()),
        1 | 2 => some,
        // A rival: the count of another replica, or what is said of the nodes.
        3 => {
            let mut rival = some;
            let count = 6 + rng.below(REPLICAS);
            let at = rng.pick(&[0, 3, 5, count]);
            rival[at] = rng.below(5) as u8;
            rival
        }
        _ => {
            let changed = damage::random(rng, &some);
            std::array::from_fn(|at| changed[at])
        }
    }
}

/// An op that is early in any log but a very long one.
fn never(rng: &mut Rng) -> [u8; OP_LEN] {
    let mut op = [0; OP_LEN];
    op[0] = 1;
    op[1] = 1 + rng.below(REPLICAS) as u8;
    op[6 + rng.below(REPLICAS)] = 200 + rng.below(55) as u8;
    op[3] = rng.byte();
    op
}
