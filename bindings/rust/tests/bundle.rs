//! Bundles: made for another's counts, opened wholly or not at all.

mod common;

use common::{all, interleaved, machines, node, replica, Rng};
use outline::{plain, Log, Node, Op, Refusal, Replica, Vector};

/// The head of a bundle: how many ops of each replica are in it, and where they
/// start.
fn head(bundle: &[u8]) -> ([u8; 8], usize) {
    let mut counts = [0; 8];
    let mut at = 1;
    for (index, count) in counts.iter_mut().enumerate() {
        if bundle[0] & 1 << index != 0 {
            *count = bundle[at];
            at += 1;
        }
    }
    (counts, at)
}

fn ops_in(bundle: &[u8]) -> Vec<Op> {
    let bodies = bundle[head(bundle).1..].chunks(14);
    bodies.map(|body| Op::from_bytes(body).unwrap()).collect()
}

/// Opens it, and expects a refusal that changes nothing.
fn refused(log: &Log, bundle: &[u8]) -> Refusal {
    let mut tried = log.clone();
    let why = tried.open_bundle(bundle).unwrap_err();
    assert_eq!(&tried, log);
    // Nor what lies past the end.
    let mut buffer = [log.as_bytes(), &[0xa5; 100]].concat();
    let before = buffer.clone();
    assert_eq!(plain::bundle_open(&mut buffer, bundle), Err(why));
    assert_eq!(buffer, before);
    why
}

#[test]
fn round_trip() {
    let from = interleaved(2040);
    let bundle = from.bundle_for(&Vector::default());
    assert_eq!(bundle.as_bytes().len(), plain::LARGEST_BUNDLE);
    let mut to = Log::new();
    assert_eq!(to.open_bundle(&bundle), Ok(2040));
    assert_eq!(to, from);
    assert_eq!(to.open_bundle(&bundle), Ok(0));
    assert_eq!(to, from);
}

/// A bundle has the ops beyond the counts, and no other.
#[test]
fn ops_beyond_any_vector() {
    let mut rng = Rng(21);
    let log = all(&machines(&mut rng, 160));
    for _ in 0..200 {
        let counts: [u8; 8] = std::array::from_fn(|_| rng.below(24) as u8);
        let bundle = log.bundle_for(&counts.into());
        let mut ops = ops_in(bundle.as_bytes());
        let in_head = head(bundle.as_bytes()).0;
        for me in Replica::all() {
            let index = usize::from(me.number()) - 1;
            let beyond = log.vector().count(me).saturating_sub(counts[index]);
            assert_eq!(in_head[index], beyond);
        }
        let mut expected: Vec<Op> = log.ops_beyond(&counts.into()).collect();
        for ops in [&mut ops, &mut expected] {
            ops.sort_by_key(|op| (op.replica(), op.sequence()));
        }
        assert_eq!(ops, expected);
    }
}

/// One bundle each way for the true counts, and one for less: what is held is
/// passed by.
#[test]
fn two_that_meet() {
    let mut rng = Rng(22);
    let mut passed_by = 0;
    for round in 0..20 {
        let logs = machines(&mut rng, 20 + 10 * round);
        let met = all(&logs[..2]);
        let (mut one, mut two) = (logs[0].clone(), logs[1].clone());
        let bundles = [two.bundle_for(&one.vector()), one.bundle_for(&two.vector())];
        let [new, other_new] = [&one, &two].map(|log| met.len() - log.len());
        assert_eq!(one.open_bundle(&bundles[0]), Ok(new));
        assert_eq!(two.open_bundle(&bundles[1]), Ok(other_new));
        assert!(one == met && two == met);

        let mut held = logs[0].clone();
        let less = <[u8; 8]>::from(held.vector()).map(|count| rng.below(usize::from(count) + 1));
        let bundle = logs[1].bundle_for(&less.map(|count| count as u8).into());
        passed_by += ops_in(bundle.as_bytes()).len() - new;
        assert_eq!(held.open_bundle(&bundle), Ok(new));
        assert_eq!(held, met);
    }
    assert!(passed_by > 50, "{passed_by}");
}

/// For a log that is ahead there is nothing; a bundle of nothing opens.
#[test]
fn counts_ahead() {
    let mut log = Log::new();
    log.add(replica(1), Node::ROOT).unwrap();
    log.add(replica(2), Node::ROOT).unwrap();
    for counts in [log.vector(), Vector::from([255; 8])] {
        assert_eq!(log.bundle_for(&counts).as_bytes(), [0]);
    }
    let bundle = log.bundle_for(&Vector::from([9, 0, 9, 0, 0, 0, 0, 0]));
    assert_eq!(bundle.as_bytes()[..2], [0b10, 1]);
    assert_eq!(ops_in(bundle.as_bytes()), [log.op(replica(2), 1).unwrap()]);
    assert_eq!(log.open_bundle([0]), Ok(0));
    assert_eq!(Log::new().open_bundle([0]), Ok(0));
    assert_eq!(refused(&log, &[0, 0]), Refusal::BadBundle);
}

/// Counts that the other has not reached: its first op is early.
#[test]
fn counts_not_reached() {
    let from = interleaved(20);
    let mut less = Log::new();
    for op in from.ops().take(7) {
        less.deliver(op).unwrap();
    }
    let bundle = from.bundle_for(&interleaved(9).vector());
    assert_eq!(refused(&less, bundle.as_bytes()), Refusal::Early);
}

/// An op that is refused, the last of a bundle: those before it are not taken.
#[test]
fn refused_ops() {
    let (me, other) = (replica(1), replica(2));
    let mut from = Log::new();
    let a = from.add(me, Node::ROOT).unwrap();
    from.add(me, a.node()).unwrap();
    from.add(other, node(258)).unwrap();
    let good = from.bundle_for(&Vector::default());
    let with = |at: usize, byte: u8| {
        let mut bundle = good.as_bytes().to_vec();
        let last = bundle.len() - 14;
        bundle[last + at] = byte;
        bundle
    };
    let empty = Log::new();
    assert_eq!(refused(&empty, &with(0, 5)), Refusal::Malformed);
    assert_eq!(refused(&empty, &with(6, 3)), Refusal::Early);
    assert_eq!(refused(&empty, &with(5, 3)), Refusal::Unknown);
    let mut rival = Log::new();
    rival.add(other, Node::ROOT).unwrap();
    assert_eq!(refused(&rival, good.as_bytes()), Refusal::Conflict);
    let mut short = [0; 32 + 3 * 14 - 1];
    plain::make(&mut short).unwrap();
    let before = short;
    let answer = plain::bundle_open(&mut short, good.as_bytes());
    assert_eq!((answer, short), (Err(Refusal::NoRoom), before));
    assert_eq!(Log::new().open_bundle(&good), Ok(3));
}

/// Number 12: every length but the right one, counts and replicas that differ.
#[test]
fn bad_bundles() {
    let mut from = Log::new();
    from.add(replica(1), Node::ROOT).unwrap();
    from.add(replica(8), Node::ROOT).unwrap();
    let good = from.bundle_for(&Vector::default());
    let good = good.as_bytes();
    assert_eq!(good[..3], [0b1000_0001, 1, 1]);
    let empty = Log::new();
    for length in 0..good.len() {
        assert_eq!(refused(&empty, &good[..length]), Refusal::BadBundle);
    }
    let longer = [good, &[0]].concat();
    assert_eq!(refused(&empty, &longer), Refusal::BadBundle);
    let replica_bytes = [4, 18].map(|at| [0, 2, 9, 9 - good[at]].map(|byte| (at, byte)));
    let head_bytes = [(0, 0b11), (0, 0b1000_0011), (1, 0), (2, 0), (1, 2)];
    for (at, byte) in head_bytes.into_iter().chain(replica_bytes.concat()) {
        let mut damaged = good.to_vec();
        damaged[at] = byte;
        assert_eq!(refused(&empty, &damaged), Refusal::BadBundle);
    }
    // A count of 0 for a bit, with all else as it should be.
    let zero = [&[0b1000_0011, 1, 0, 1], &good[3..]].concat();
    assert_eq!(refused(&empty, &zero), Refusal::BadBundle);
    assert_eq!(Log::new().open_bundle(good), Ok(2));
}
