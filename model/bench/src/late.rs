//! Logs to which an op comes late: some of those that are held sort after it.

use crate::meeting::by_replicas_from;
use crate::work::{Shape, SIZES};
use outline_model::cases::examples::{add, adds, log_of};
use outline_model::cases::world::{Style, World};
use outline_model::rng::Rng;
use outline_model::tree::timestamps;
use outline_model::{Kind, Op, MAX_SEQUENCE, REPLICAS};
use std::collections::HashMap;
use std::sync::LazyLock;

/// By how many ops one comes late.
#[derive(Clone, Copy, PartialEq, Eq)]
pub enum Late {
    /// It sorts last.
    Last,
    Ten,
    Hundred,
}

impl Late {
    /// How many held ops sort after it.
    pub fn by(self) -> usize {
        match self {
            Late::Last => 0,
            Late::Ten => 10,
            Late::Hundred => 100,
        }
    }

    /// A log, which is the same for each of these, and behind it the op. Replica 1
    /// issued that one: most is moved up for it.
    pub fn ops(self, shape: Shape, size: usize) -> Vec<Op> {
        let mut ops = match shape {
            Shape::Random => RANDOM[&size].clone(),
            _ => log(size - 1, |many| shape.ops(many)),
        };
        ops.push(self.op(&ops).expect("the log fits"));
        ops
    }

    /// An add that counts all ops before its own timestamp, if there is one with
    /// just so many behind.
    fn op(self, held: &[Op]) -> Option<Op> {
        let times = timestamps(&log_of(held));
        let time = |op: &Op| times[MAX_SEQUENCE * op.index() + op.sequence()];
        // At its own timestamp all adds come before it, and nothing else.
        let is_behind = |op: &Op, own: usize| (time(op), op.kind) > (own, Kind::Add);
        let behind = |own: usize| held.iter().filter(|op| is_behind(op, own)).count();
        let latest = 1 + held.iter().map(time).max()?;
        let own = (1..=latest).rev().find(|&own| behind(own) >= self.by())?;
        let mut counts = [0; REPLICAS];
        for op in held.iter().filter(|op| time(op) < own) {
            counts[op.index()] += 1;
        }
        (behind(own) == self.by()).then(|| add(1, 0, &counts))
    }
}

/// The random log for each size: it takes many tries to find one.
static RANDOM: LazyLock<HashMap<usize, Vec<Op>>> = LazyLock::new(|| {
    let sizes = SIZES.into_iter().filter(|&size| size > 0);
    sizes.map(|size| (size, random(size - 1))).collect()
});

/// The first to which an op can come late by just 10, and one by just 100.
fn random(count: usize) -> Vec<Op> {
    let fits = |ops: &Vec<Op>| {
        let mut each = [Late::Ten, Late::Hundred].into_iter();
        each.all(|late| late.by() > count || late.op(ops).is_some())
    };
    let world = |seed: u64, many: usize| {
        let style = Style::mixed(REPLICAS - 1, many);
        World::random(&mut Rng::new(seed), style).ops
    };
    (0..)
        .map(|seed| log(count, |many| world(seed, many)))
        .find(fits)
        .expect("some log fits")
}

/// A log of replicas 2 to 8. Where these are full, replica 1 has added the rest
/// before them.
pub fn log(count: usize, others: impl FnOnce(usize) -> Vec<Op>) -> Vec<Op> {
    let many = count.min(MAX_SEQUENCE * (REPLICAS - 1));
    let first = adds(1, count - many);
    let mut others = by_replicas_from(2, others(many));
    for op in &mut others {
        op.vector[0] = first.len() as u8;
    }
    [first, others].concat()
}
