//! The ops of a log as they were judged, and why moves lost.

use outline::{Kind, Log, Node, Op, Outcome, Replica};
use std::collections::HashMap;
use std::fmt;
use std::iter::successors;

/// An op by its seat and sequence: `1:3`.
#[derive(Clone, Copy, PartialEq, Eq, PartialOrd, Ord, Hash)]
pub struct Id {
    pub replica: Replica,
    pub sequence: u8,
}

impl Id {
    pub fn of(op: &Op) -> Id {
        Id {
            replica: op.replica(),
            sequence: op.sequence(),
        }
    }

    /// The op of this name that a log has.
    pub fn of_log(self, log: &Log) -> Option<Op> {
        log.op(self.replica, self.sequence)
    }
}

impl fmt::Display for Id {
    fn fmt(&self, f: &mut fmt::Formatter<'_>) -> fmt::Result {
        write!(f, "{}:{}", self.replica, self.sequence)
    }
}

/// What became of an op, and why.
#[derive(Clone, Copy, PartialEq, Eq)]
pub enum Became {
    Applied,
    /// A move that gave way to this one, which placed the node at the same
    /// timestamp.
    GaveWay(Id),
    /// A move to a parent that was so many steps below the node, or the node
    /// itself.
    LeftOut(usize),
}

/// An op as it was judged.
pub struct Judged {
    pub op: Op,
    pub timestamp: usize,
    pub became: Became,
}

impl Judged {
    /// The document's number.
    pub fn outcome(&self) -> u8 {
        let outcome = match self.became {
            Became::Applied => Outcome::Applied,
            Became::GaveWay(_) => Outcome::PlacedAlready,
            Became::LeftOut(_) => Outcome::WouldCloseCircle,
        };
        outcome.number()
    }

    /// Whether it gave its node a new place.
    pub fn has_moved(&self) -> bool {
        is_move(&self.op) && self.became == Became::Applied
    }

    /// Why a move lost, if it did.
    pub fn why(&self) -> Option<String> {
        let (node, parent) = (self.op.node(), self.op.parent().unwrap_or(Node::ROOT));
        match self.became {
            Became::Applied => None,
            Became::GaveWay(to) => Some(format!("gave way to {to}")),
            Became::LeftOut(steps) => Some(format!("left out, {parent} was {steps} below {node}")),
        }
    }
}

/// The ops of a log in the order in which they are judged. Order and outcomes are
/// the library's; the timestamps and the tree at each op follow from them.
pub fn judged(log: &Log) -> Vec<Judged> {
    let page = log.page();
    let mut before = Before::default();
    let judge = |(replica, sequence)| {
        let op = log.op(replica, sequence)?;
        let outcome = page.outcome_of(replica, sequence)?;
        Some(before.judge(op, outcome))
    };
    page.order().filter_map(judge).collect()
}

/// What the ops that were judged before one have come to.
#[derive(Default)]
struct Before {
    timestamps: HashMap<Id, usize>,
    parents: HashMap<Node, Node>,
    /// The applied move of a timestamp that placed a node.
    placed: HashMap<(usize, Node), Id>,
}

impl Before {
    fn judge(&mut self, op: Op, outcome: Outcome) -> Judged {
        let timestamp = self.timestamp(&op);
        self.timestamps.insert(Id::of(&op), timestamp);
        let (node, place) = (op.node(), (timestamp, op.node()));
        let became = match (outcome, op.parent()) {
            (Outcome::PlacedAlready, _) => {
                Became::GaveWay(*self.placed.get(&place).unwrap_or(&Id::of(&op)))
            }
            (Outcome::WouldCloseCircle, Some(parent)) => Became::LeftOut(self.steps(parent, node)),
            (_, parent) => {
                if let Some(parent) = parent {
                    self.parents.insert(node, parent);
                }
                if is_move(&op) {
                    self.placed.insert(place, Id::of(&op));
                }
                Became::Applied
            }
        };
        Judged {
            op,
            timestamp,
            became,
        }
    }

    /// 1 more than the greatest timestamp of what an op counts; of each replica the last
    /// one has the greatest.
    fn timestamp(&self, op: &Op) -> usize {
        let last = |replica| Id {
            replica,
            sequence: op.vector().count(replica),
        };
        let counted = Replica::all().filter_map(|of| self.timestamps.get(&last(of)));
        counted.max().unwrap_or(&0) + 1
    }

    /// The steps from a node up to one above it.
    fn steps(&self, from: Node, to: Node) -> usize {
        let climb = successors(Some(from), |at| self.parents.get(at).copied());
        climb.take_while(|&at| at != to).count()
    }
}

fn is_move(op: &Op) -> bool {
    matches!(op.kind(), Kind::MoveUp | Kind::MoveDown)
}

/// The ops that two logs have of one seat and sequence, and that differ.
pub fn differing<'a>(one: &'a Log, other: &'a Log) -> impl Iterator<Item = Id> + 'a {
    one.ops().map(|op| Id::of(&op)).filter(|id| {
        let (mine, its) = (id.of_log(one), id.of_log(other));
        its.is_some() && mine != its
    })
}
