//! A log: issuing, delivering, bytes, and ops that are read.

mod common;

use common::{all, machines, node, replica, Rng};
use outline::{plain, Delivery, Kind, Log, Node, Op, Refusal, Vector};

#[test]
fn removed_nodes_take_no_new_work() {
    let (me, other) = (replica(1), replica(2));
    let mut log = Log::new();
    let a = log.add(me, Node::ROOT).unwrap().node();
    let b = log.add(me, a).unwrap().node();
    let mut unmet = log.clone();
    let late = unmet.add(other, a).unwrap();
    log.remove(me, a).unwrap();
    let before = log.clone();
    assert_eq!(log.add(me, a), Err(Refusal::Marked));
    assert_eq!(log.move_to(me, a, Node::ROOT), Err(Refusal::Marked));
    assert_eq!(log.move_to(me, b, a), Err(Refusal::Marked));
    assert_eq!(log.move_to(me, a, b), Err(Refusal::Marked));
    assert_eq!(log, before);
    assert!(log.add(me, b).is_ok());
    assert!(log.remove(other, a).is_ok());
    assert_eq!(log.deliver(&late), Err(Refusal::Conflict));
    let mut met = before.clone();
    assert!(matches!(met.deliver(&late), Ok(Delivery::Accepted(_))));
    assert_eq!(met.parent(late.node()), Some(a));
}

#[test]
fn issuing() {
    let me = replica(1);
    let mut log = Log::new();
    assert!(log.is_empty());
    let a = log.add(me, Node::ROOT).unwrap();
    let b = log.add(me, a.node()).unwrap();
    let before = log.clone();
    assert_eq!(log.add(me, node(259)), Err(Refusal::Unknown));
    assert_eq!(log.remove(me, Node::ROOT), Err(Refusal::Unknown));
    assert_eq!(log.move_to(me, Node::ROOT, a.node()), Err(Refusal::Unknown));
    assert_eq!(log.move_to(me, a.node(), a.node()), Err(Refusal::Unknown));
    assert_eq!(log.move_to(me, a.node(), b.node()), Err(Refusal::Cycle));
    assert_eq!(log, before);

    let up = log.move_to(replica(8), b.node(), Node::ROOT).unwrap();
    assert_eq!(up.kind(), Kind::MoveUp);
    assert_eq!((up.replica(), up.sequence()), (replica(8), 1));
    assert_eq!((up.node(), up.parent()), (b.node(), Some(Node::ROOT)));
    assert_eq!(up.vector(), Vector::from([2, 0, 0, 0, 0, 0, 0, 0]));
    assert_eq!(up.weight(), 2);
    let down = log.move_to(me, a.node(), b.node()).unwrap();
    assert_eq!(down.kind(), Kind::MoveDown);
    let remove = log.remove(me, a.node()).unwrap();
    assert_eq!((remove.kind(), remove.parent()), (Kind::Remove, None));
    assert_eq!(remove.vector(), Vector::from([3, 0, 0, 0, 0, 0, 0, 1]));
    assert_eq!((log.len(), log.as_bytes().len()), (5, 32 + 5 * 14));
    assert_eq!(log.vector(), Vector::from([4, 0, 0, 0, 0, 0, 0, 1]));
    assert!(remove.vector().is_within(&log.vector()));
    assert_eq!(log.op(me, 4), Some(remove));
    assert_eq!(log.op(me, 0), None);
    assert_eq!(log.op(me, 5), None);
    assert_eq!(log.op(replica(8), 1), Some(up));
}

#[test]
fn full() {
    let mut log = Log::new();
    for me in outline::Replica::all() {
        for _ in 0..255 {
            log.add(me, Node::ROOT).unwrap();
        }
        assert_eq!(log.add(me, Node::ROOT), Err(Refusal::Exhausted));
    }
    assert_eq!(log.as_bytes().len(), plain::LARGEST);
    assert_eq!(Log::from_bytes(log.as_bytes()), Ok(log.clone()));
    assert_eq!(log.ops().len(), 2040);
    assert_eq!(log.tree().children(Node::ROOT).count(), 2040);
    assert_eq!(log.lines(outline::View::Skipping).count(), 2041);
}

#[test]
fn delivering() {
    let me = replica(1);
    let mut one = Log::new();
    let a = one.add(me, Node::ROOT).unwrap();
    let b = one.add(me, a.node()).unwrap();
    let mut two = Log::new();
    assert_eq!(two.deliver(b), Err(Refusal::Early));
    assert_eq!(two.deliver([]), Err(Refusal::Length));
    assert_eq!(two.deliver([0; 14]), Err(Refusal::Malformed));
    assert_eq!(two, Log::new());
    assert_eq!(two.deliver(a.as_bytes()), Ok(Delivery::Accepted(46)));
    assert_eq!(two.deliver(&b.as_bytes()[..]), Ok(Delivery::Accepted(60)));
    assert_eq!(two.deliver(b), Ok(Delivery::HadIt));
    assert_eq!(one, two);
    let mut other = *b.as_bytes();
    other[5] = 0;
    other[4] = 0;
    assert_eq!(two.deliver(other), Err(Refusal::Conflict));
    assert_eq!(one, two);
}

/// Bytes are a log exactly if the library finds them sound and they end with it.
#[test]
fn bytes() {
    let mut rng = Rng(1);
    let file = all(&machines(&mut rng, 40)).as_bytes().to_vec();
    let log = Log::from_bytes(&file).unwrap();
    assert_eq!(log.as_bytes(), file);
    assert_eq!(Log::try_from(&file[..]), Ok(log.clone()));
    assert_eq!(log.as_ref(), file);
    for length in 0..file.len() {
        assert_eq!(Log::from_bytes(&file[..length]), Err(Refusal::Unsound));
    }
    let longer = [&file[..], &[0]].concat();
    assert!(plain::is_sound(&longer));
    assert_eq!(Log::from_bytes(&longer), Err(Refusal::Unsound));
    let huge = [&file[..], &[0; 40_000]].concat();
    assert_eq!(Log::from_bytes(&huge), Err(Refusal::Unsound));

    let (mut sound, mut unsound) = (0, 0);
    for at in 0..file.len() {
        for change in [1, 2, 3, 128, 255] {
            let mut damaged = file.clone();
            damaged[at] ^= change;
            let mut parents = [0; plain::TABLE];
            let judged = plain::judge(&damaged, &mut parents, &mut [0; plain::TABLE]);
            assert_eq!(plain::is_sound(&damaged), judged.is_ok());
            assert_eq!(plain::end(&damaged).is_ok(), judged.is_ok());
            // A lower count of the last replica leaves a sound log and a rest.
            let whole = plain::end(&damaged) == Ok(damaged.len());
            let log = Log::from_bytes(&damaged);
            assert_eq!(log.is_ok(), whole);
            match log {
                Ok(log) => assert_eq!(log.as_bytes(), damaged),
                Err(why) => assert_eq!(why, Refusal::Unsound),
            }
            sound += usize::from(whole);
            unsound += usize::from(!whole);
        }
    }
    assert!(sound > 10 && unsound > 500, "{sound} {unsound}");
}

#[test]
fn ends_and_counts() {
    let mut rng = Rng(2);
    for log in machines(&mut rng, 100) {
        let mut buffer = log.as_bytes().to_vec();
        assert_eq!(plain::end(&buffer), Ok(log.as_bytes().len()));
        buffer.extend([7; 100]);
        assert_eq!(plain::end(&buffer), Ok(log.as_bytes().len()));
        assert_eq!(plain::counts(&buffer), Ok(log.vector().into()));
    }
    assert_eq!(plain::end(&[0; 100]), Err(Refusal::Unsound));
    assert_eq!(plain::counts(&[]), Err(Refusal::Unsound));
}

/// Reading an op makes the same tests as delivering it.
#[test]
fn reading_ops() {
    let mut rng = Rng(3);
    let log = all(&machines(&mut rng, 60));
    let ops: Vec<Op> = log.ops().collect();
    let mut seen = [0; 4];
    for _ in 0..40_000 {
        let mut bytes = *rng.pick(&ops).as_bytes();
        for _ in 0..1 + rng.below(2) {
            bytes[rng.below(14)] = rng.pick(&[0, 1, 2, 3, 4, 5, 8, 9, 254, 255]);
        }
        let length = if rng.below(20) == 0 { 13 } else { 14 };
        let bytes = &bytes[..length];
        let delivered = Log::new().deliver(bytes);
        match Op::from_bytes(bytes) {
            Ok(op) => {
                assert_eq!(op.as_bytes(), bytes);
                assert_eq!(Op::try_from(bytes), Ok(op));
                assert_ne!(delivered, Err(Refusal::Malformed));
                assert_ne!(delivered, Err(Refusal::Length));
                assert_eq!([op.kind().number(), op.replica().number()], bytes[..2]);
                assert_eq!(op.node().number().to_be_bytes(), bytes[2..4]);
                let parent = op.parent().unwrap_or(Node::ROOT).number();
                assert_eq!(parent.to_be_bytes(), bytes[4..6]);
                assert_eq!(<[u8; 8]>::from(op.vector()), bytes[6..]);
                assert_eq!(op.sequence() - 1, op.vector().count(op.replica()));
                seen[0] += 1;
            }
            // The library tests this last of all.
            Err(Refusal::Unknown) => {
                let late = [Refusal::Early, Refusal::NotClosed, Refusal::Unknown];
                assert!(late.map(Err).contains(&delivered), "{delivered:?}");
                assert!(log.clone().deliver(bytes).is_err());
                seen[1] += 1;
            }
            Err(why) => {
                assert_eq!(delivered, Err(why));
                seen[2 + usize::from(why == Refusal::Length)] += 1;
            }
        }
    }
    assert!(seen.iter().all(|&count| count > 1000), "{seen:?}");
}

#[test]
fn words() {
    let mut log = Log::new();
    assert_eq!(format!("{log:?}"), "[]");
    log.add(replica(2), Node::ROOT).unwrap();
    assert_eq!(
        format!("{log:?}"),
        "[Op { kind: Add, replica: Replica(2), sequence: 1, node: Node(513), \
         parent: Some(Node(0)), vector: Vector([0, 0, 0, 0, 0, 0, 0, 0]) }]"
    );
    assert_eq!(format!("{:?}", log.ops()), format!("{log:?}"));
    let refusal: Box<dyn std::error::Error> = Refusal::Cycle.into();
    assert_eq!(refusal.to_string(), "the new parent lies below the node");
}
