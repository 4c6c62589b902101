//! Logs that meet: ops in causal order, in one pass.

mod common;

use common::{all, interleaved, machines, node, replica, Rng};
use outline::{Delivery, Log, Node, Op, Refusal, Replica, Vector};

/// Sums of counts do not fall, and each op comes after all that it counts.
fn check_order(ops: &[Op], held: Vector) {
    assert!(ops
        .windows(2)
        .all(|pair| pair[0].weight() <= pair[1].weight()));
    let mut held: [u8; 8] = held.into();
    for op in ops {
        assert!(op.vector().is_within(&held.into()));
        let count = &mut held[usize::from(op.replica().number()) - 1];
        assert_eq!(*count + 1, op.sequence());
        *count += 1;
    }
}

/// Offers ops once in their order, all of which are accepted.
fn offer(ops: impl Iterator<Item = Op>, to: &mut Log) {
    for op in ops {
        assert!(matches!(to.deliver(op), Ok(Delivery::Accepted(_))));
    }
}

#[test]
fn interleaved_in_one_pass() {
    let from = interleaved(2040);
    check_order(&from.ops().collect::<Vec<_>>(), Vector::default());
    let mut to = Log::new();
    assert_eq!(to.merge(&from), Ok(2040));
    assert_eq!(to, from);
    assert_eq!(to.merge(&from), Ok(0));
    for op in from.ops() {
        assert_eq!(to.deliver(op), Ok(Delivery::HadIt));
    }
}

/// In file order, offered until none is early, they take many rounds.
#[test]
fn rounds_in_file_order() {
    let from = interleaved(80);
    let mut to = Log::new();
    let mut rounds = 0;
    let mut early = true;
    while early {
        early = false;
        for op in from.as_bytes()[32..].chunks(14) {
            early |= to.deliver(op) == Err(Refusal::Early);
        }
        rounds += 1;
    }
    assert_eq!((rounds, &to), (71, &from));
}

#[test]
fn random_machines() {
    let mut rng = Rng(11);
    for round in 0..20 {
        let mut logs = machines(&mut rng, 20 + 10 * round);
        for log in &logs {
            let ops: Vec<Op> = log.into_iter().collect();
            check_order(&ops, Vector::default());
            assert_eq!(ops.len(), log.len());
            let mut copy = Log::new();
            offer(ops.into_iter(), &mut copy);
            assert_eq!(&copy, log);
        }
        // Two that meet over a wire.
        let (mut one, mut two) = (logs[0].clone(), logs[1].clone());
        let (to_one, to_two) = (one.vector(), two.vector());
        let (from_one, from_two) = (one.clone(), two.clone());
        check_order(&from_two.ops_beyond(&to_one).collect::<Vec<_>>(), to_one);
        offer(from_two.ops_beyond(&to_one), &mut one);
        offer(from_one.ops_beyond(&to_two), &mut two);
        assert_eq!(one, two);
        let (mut merged, mut other) = (from_one.clone(), from_two.clone());
        merged.merge(&from_two).unwrap();
        other.merge(&from_one).unwrap();
        assert!(merged == one && other == one);
        // All of an other's ops, also those that are held: none is early.
        let mut whole = from_one.clone();
        for op in from_two.ops() {
            assert!(whole.deliver(op).is_ok());
        }
        assert_eq!(whole, one);
        // All eight, in either direction.
        let met = all(&logs);
        logs.reverse();
        assert_eq!(all(&logs), met);
        for log in &mut logs {
            log.merge(&met).unwrap();
            assert_eq!(*log, met);
            assert_eq!(log.tree(), met.tree());
        }
    }
}

#[test]
fn ops_beyond_any_vector() {
    let mut rng = Rng(12);
    let log = all(&machines(&mut rng, 160));
    for _ in 0..200 {
        let vector = Vector::from(std::array::from_fn(|_| rng.below(20) as u8));
        let ops: Vec<Op> = log.ops_beyond(&vector).collect();
        let expected = log
            .ops()
            .filter(|op| op.sequence() > vector.count(op.replica()));
        assert!(expected.eq(ops.iter().copied()));
        let mut left = log.ops_beyond(&vector);
        for i in 0..=ops.len() {
            assert_eq!(left.len(), ops.len() - i);
            assert_eq!(left.next().as_ref(), ops.get(i));
        }
        assert_eq!(left.next(), None);
    }
    assert_eq!(log.ops_beyond(&log.vector()).len(), 0);
    assert_eq!(log.ops_beyond(&Vector::from([255; 8])).len(), 0);
}

#[test]
fn every_pair_of_replicas_full() {
    let mut log = Log::new();
    for me in [replica(1), replica(8)] {
        for _ in 0..255 {
            log.add(me, Node::ROOT).unwrap();
        }
    }
    assert_eq!(log.ops().count(), 510);
    let last = log.ops().last().unwrap();
    assert_eq!((last.replica(), last.sequence()), (replica(8), 255));
}

/// Two machines that issue as one replica are found out, and nothing changes.
#[test]
fn conflict() {
    let me = replica(4);
    let mut one = Log::new();
    one.add(me, Node::ROOT).unwrap();
    let mut two = one.clone();
    one.add(me, Node::ROOT).unwrap();
    two.add(me, node(1025)).unwrap();
    two.add(replica(5), Node::ROOT).unwrap();
    let before = (one.clone(), two.clone());
    assert_eq!(one.merge(&two), Err(Refusal::Conflict));
    assert_eq!(two.merge(&one), Err(Refusal::Conflict));
    assert_eq!((one, two), before);
}

#[test]
fn replicas_in_order() {
    let mut log = Log::new();
    for me in Replica::all().rev() {
        // Not one has heard of another.
        let mut apart = Log::new();
        apart.add(me, Node::ROOT).unwrap();
        apart.add(me, Node::ROOT).unwrap();
        log.merge(&apart).unwrap();
    }
    let numbers = log.ops().map(|op| op.node().number());
    assert!(numbers.eq((1..=2).flat_map(|q| (1..=8).map(move |s| 256 * s + q))));
}
