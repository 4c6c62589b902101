//! Deliveries with a holdback: what waits, what is taken with what, and what is
//! dropped.

mod common;

use common::{all, interleaved, machines, node, replica, Rng};
use outline::{plain, Delivery, Holdback, Log, Node, Op, Refusal};
use std::collections::BTreeMap;
use std::mem::take;

fn shuffle<T>(rng: &mut Rng, list: &mut [T]) {
    for last in (1..list.len()).rev() {
        list.swap(rng.below(last + 1), last);
    }
}

/// The bytes of a holdback of these.
fn bytes_of(waiting: &[Vec<u8>]) -> Vec<u8> {
    let mut bytes = [vec![waiting.len() as u8], waiting.concat()].concat();
    bytes.resize(plain::HOLDBACK, 0);
    bytes
}

fn holdback_of(waiting: &[Op]) -> Holdback {
    let waiting: Vec<Vec<u8>> = waiting.iter().map(|&op| changed(op, &[])).collect();
    Holdback::from_bytes(&bytes_of(&waiting)).unwrap()
}

/// The bytes of an op, some of them others.
fn changed(op: Op, changes: &[(usize, u8)]) -> Vec<u8> {
    let mut bytes = op.as_bytes().to_vec();
    for &(at, byte) in changes {
        bytes[at] = byte;
    }
    bytes
}

/// Delivers it, and expects an answer that changes nothing, also not past the
/// end of the log.
fn unchanged(log: &Log, op: &[u8], holdback: &Holdback) -> Result<Delivery, Refusal> {
    let (mut tried, mut beside) = (log.clone(), holdback.clone());
    let answer = tried.deliver_with_holdback(op, &mut beside);
    assert_eq!((&tried, &beside), (log, holdback));
    let mut buffer = [log.as_bytes(), &[0xa5; 100]].concat();
    let (before, mut lent) = (buffer.clone(), holdback.as_bytes().to_vec());
    assert_eq!(plain::holdback_deliver(&mut buffer, op, &mut lent), answer);
    assert_eq!((buffer, &lent[..]), (before, &holdback.as_bytes()[..]));
    answer
}

/// The rule, spelled out in plain deliveries.
fn by_rule(buf: &mut [u8], op: &[u8], holdback: &mut Vec<u8>) -> Result<Delivery, Refusal> {
    plain::end(buf)?;
    let before = Holdback::from_bytes(holdback)?;
    let mut waiting: Vec<Vec<u8>> = before.ops().map(<[u8]>::to_vec).collect();
    let mut answer = plain::deliver(buf, op);
    if answer == Err(Refusal::Early) {
        if !waiting.iter().any(|waits| waits == op) {
            if before.is_full() {
                return Err(Refusal::HoldbackFull);
            }
            waiting.push(op.to_vec());
        }
        answer = Ok(Delivery::Waiting);
    }
    let mut at = 0;
    while matches!(answer, Ok(Delivery::Accepted(_))) && at < waiting.len() {
        match plain::deliver(buf, &waiting[at]) {
            Err(Refusal::Early | Refusal::NoRoom) => at += 1,
            met => {
                waiting.remove(at);
                if matches!(met, Ok(Delivery::Accepted(_))) {
                    (answer, at) = (met, 0);
                }
            }
        }
    }
    *holdback = bytes_of(&waiting);
    answer
}

/// One chain from its end: all but the first wait, and one call accepts 33.
#[test]
fn reverse_order() {
    let from = interleaved(Holdback::CAPACITY + 1);
    let mut ops: Vec<Op> = from.ops().collect();
    ops.reverse();
    let last = ops.pop().unwrap();
    let (mut to, mut holdback) = (Log::new(), Holdback::new());
    for (place, op) in ops.iter().enumerate() {
        assert_eq!(holdback.len(), place);
        for _ in 0..2 {
            let answer = to.deliver_with_holdback(op, &mut holdback);
            assert_eq!(answer, Ok(Delivery::Waiting));
        }
    }
    assert!(holdback.is_full() && to.is_empty());
    assert_eq!(holdback, holdback_of(&ops));
    assert!(holdback
        .ops()
        .map(Op::from_bytes)
        .eq(ops.iter().copied().map(Ok)));

    let end = from.as_bytes().len();
    let answer = to.deliver_with_holdback(last, &mut holdback);
    assert_eq!(answer, Ok(Delivery::Accepted(end)));
    assert_eq!((&to, &holdback), (&from, &Holdback::new()));
    for op in ops {
        assert_eq!(
            unchanged(&to, op.as_bytes(), &holdback),
            Ok(Delivery::HadIt)
        );
    }
}

/// Offered once each, in any order and some of them twice, they come to what
/// offering them plainly over and over comes to.
#[test]
fn any_order() {
    let mut rng = Rng(31);
    let (mut filled, mut waited) = (0, 0);
    for round in 0..40 {
        let met = all(&machines(&mut rng, 4 + 4 * round));
        let mut ops: Vec<Op> = met.ops().collect();
        ops.extend_from_within(..ops.len() / 4);
        shuffle(&mut rng, &mut ops);
        let (mut to, mut holdback) = (Log::new(), Holdback::new());
        let mut full = false;
        // What found no place is offered again, as plain deliveries would be.
        while !ops.is_empty() {
            for op in take(&mut ops) {
                match to.deliver_with_holdback(op, &mut holdback) {
                    Ok(Delivery::Accepted(end)) => assert_eq!(end, to.as_bytes().len()),
                    Ok(Delivery::HadIt) => {}
                    Ok(Delivery::Waiting) => waited += 1,
                    answer => {
                        assert_eq!(answer, Err(Refusal::HoldbackFull));
                        assert!(holdback.is_full());
                        ops.push(op);
                    }
                }
                full |= holdback.is_full();
                let mut left = holdback.ops().map(|bytes| Op::from_bytes(bytes).unwrap());
                assert!(left.all(|op| !op.vector().is_within(&to.vector())));
            }
            assert!(full || ops.is_empty());
        }
        assert_eq!((&to, &holdback), (&met, &Holdback::new()));
        filled += usize::from(full);
    }
    assert!((10..30).contains(&filled), "{filled}");
    assert!(waited > 1000, "{waited}");
}

/// 32 wait: no place for one more, but those that wait are still answered so.
#[test]
fn full() {
    let from = interleaved(40);
    let ops: Vec<Op> = from.ops().collect();
    let holdback = holdback_of(&ops[8..]);
    let empty = Log::new();
    assert!(holdback.is_full());
    for early in &ops[1..8] {
        let answer = unchanged(&empty, early.as_bytes(), &holdback);
        assert_eq!(answer, Err(Refusal::HoldbackFull));
    }
    for waits in &ops[8..] {
        let answer = unchanged(&empty, waits.as_bytes(), &holdback);
        assert_eq!(answer, Ok(Delivery::Waiting));
    }
    // What comes before it in the order is answered as ever.
    let mut malformed = *ops[1].as_bytes();
    malformed[0] = 0;
    let answer = unchanged(&empty, &malformed, &holdback);
    assert_eq!(answer, Err(Refusal::Malformed));
    assert_eq!(unchanged(&empty, &[], &holdback), Err(Refusal::Length));
    // An op that is not early needs no place.
    let (mut to, mut left) = (empty, holdback.clone());
    for op in &ops[..7] {
        assert!(to.deliver_with_holdback(op, &mut left).is_ok());
        assert_eq!(left, holdback);
    }
    let answer = to.deliver_with_holdback(ops[7], &mut left);
    assert_eq!(answer, Ok(Delivery::Accepted(from.as_bytes().len())));
    assert_eq!((to, left), (from, Holdback::new()));
}

/// Each refusal of an op that is not early, with another waiting.
#[test]
fn refused() {
    let (me, other) = (replica(1), replica(2));
    let mut log = Log::new();
    let a = log.add(me, Node::ROOT).unwrap();
    let b = log.add(other, a.node()).unwrap();
    let mut ahead = log.clone();
    ahead.add(me, Node::ROOT).unwrap();
    let early = ahead.add(me, Node::ROOT).unwrap();
    let holdback = holdback_of(&[early]);
    let with = |changes: &[(usize, u8)]| unchanged(&log, &changed(b, changes), &holdback);
    assert_eq!(with(&[]), Ok(Delivery::HadIt));
    assert_eq!(with(&[(1, 0)]), Err(Refusal::Malformed));
    assert_eq!(with(&[(4, 0), (5, 0)]), Err(Refusal::Conflict));
    // Of replica 3: it counts b and not what b counts; its parent is no node.
    let gap = with(&[(1, 3), (2, 3), (6, 0), (7, 1)]);
    assert_eq!(gap, Err(Refusal::NotClosed));
    assert_eq!(with(&[(1, 3), (2, 3), (5, 2)]), Err(Refusal::Unknown));
    let short = &b.as_bytes()[1..];
    assert_eq!(unchanged(&log, short, &holdback), Err(Refusal::Length));
}

/// Of what waits, an op that is held, malformed, in conflict, not closed or
/// unknown when it is met is dropped; one that is early or lacks room is left.
#[test]
fn dropped_and_left() {
    let (me, other) = (replica(1), replica(2));
    let mut from = Log::new();
    let a = from.add(me, Node::ROOT).unwrap();
    let b = from.add(other, a.node()).unwrap();
    let c = from.add(me, b.node()).unwrap();
    from.add(replica(8), Node::ROOT).unwrap();
    let early = from.add(replica(8), Node::ROOT).unwrap();
    let waiting = [
        changed(b, &[(0, 9)]),                         // malformed
        changed(early, &[]),                           // early to the end
        changed(c, &[(1, 3), (2, 3), (3, 1), (6, 0)]), // counts b and not a
        changed(b, &[(1, 4), (2, 4), (3, 2)]),         // adds a node that is not its own
        changed(b, &[]),                               // accepted
        changed(b, &[(4, 0), (5, 0)]),                 // in conflict with the one before
        changed(c, &[]),                               // accepted if there is room
        changed(a, &[]),                               // held
    ];
    for (room, left) in [(3, vec![early]), (2, vec![early, c])] {
        let mut buf = vec![0xa5; 32 + 14 * room];
        plain::make(&mut buf).unwrap();
        let mut plainly = buf.clone();
        for op in [a, b, c].iter().take(room) {
            plain::deliver(&mut plainly, op.as_bytes()).unwrap();
        }
        let mut lent = bytes_of(&waiting);
        let answer = plain::holdback_deliver(&mut buf, a.as_bytes(), &mut lent);
        assert_eq!(answer, Ok(Delivery::Accepted(buf.len())));
        assert_eq!(buf, plainly);
        assert_eq!(lent, holdback_of(&left).as_bytes());
    }
    // With no room for the op itself nothing is searched.
    let mut buf = [0; 45];
    plain::make(&mut buf).unwrap();
    let (before, mut lent) = (buf, bytes_of(&waiting));
    let answer = plain::holdback_deliver(&mut buf, a.as_bytes(), &mut lent);
    assert_eq!((answer, buf), (Err(Refusal::NoRoom), before));
    assert_eq!(lent, bytes_of(&waiting));
}

/// An early op may name what is no node; that shows when its turn comes.
#[test]
fn bytes_that_do_not_read() {
    let (mut log, mut holdback) = (Log::new(), Holdback::new());
    let op = log.clone().add(replica(1), Node::ROOT).unwrap();
    let strange = [1, 2, 2, 1, 255, 255, 1, 0, 0, 0, 0, 0, 0, 0];
    assert_eq!(Op::from_bytes(&strange), Err(Refusal::Unknown));
    let answer = log.deliver_with_holdback(strange, &mut holdback);
    assert_eq!(answer, Ok(Delivery::Waiting));
    assert!(holdback.ops().eq([strange]));
    let answer = log.deliver_with_holdback(op, &mut holdback);
    assert_eq!(answer, Ok(Delivery::Accepted(46)));
    assert!(holdback.is_empty());
    // And one that was read from bytes may be nothing but noise.
    let mut noise = Holdback::from_bytes(&[&[32], &[0xa5; 448][..]].concat()).unwrap();
    assert_eq!(noise.ops().len(), 32);
    assert!(noise.ops().all(|bytes| Op::from_bytes(bytes).is_err()));
    let op = log.clone().add(replica(1), node(257)).unwrap();
    assert!(log.deliver_with_holdback(op, &mut noise).is_ok());
    assert_eq!(noise, Holdback::new());
}

/// A holdback goes by its bytes; they are sound exactly if the call takes them.
#[test]
fn damaged() {
    let ops: Vec<Op> = interleaved(40).ops().collect();
    let sound = Log::new();
    // The length of an op is tested next.
    let taken = |bytes: &[u8]| {
        let (mut buf, mut lent) = (sound.as_bytes().to_vec(), bytes.to_vec());
        let answer = plain::holdback_deliver(&mut buf, &[], &mut lent);
        assert_eq!((&buf[..], &lent[..]), (sound.as_bytes(), bytes));
        assert_eq!(Holdback::try_from(bytes), Holdback::from_bytes(bytes));
        match Holdback::from_bytes(bytes) {
            Ok(holdback) => assert_eq!(holdback.as_bytes(), bytes),
            Err(why) => assert_eq!(why, Refusal::BadHoldback),
        }
        let is_taken = answer == Err(Refusal::Length);
        assert!(is_taken || answer == Err(Refusal::BadHoldback));
        assert_eq!(Holdback::from_bytes(bytes).is_ok(), is_taken);
        is_taken
    };
    for count in 0..=Holdback::CAPACITY {
        let holdback = holdback_of(&ops[..count]);
        let good = holdback.as_bytes().to_vec();
        assert!(taken(&good));
        assert_eq!((holdback.len(), holdback.ops().len()), (count, count));
        assert_eq!(holdback.is_empty(), count == 0);
        assert_eq!(holdback.is_full(), count == 32);
        // A lower count leaves bytes past its ops, a higher one takes zeros for ops.
        for other in 0..=255 {
            let mut damaged = good.clone();
            damaged[0] = other;
            let other = usize::from(other);
            assert_eq!(taken(&damaged), (count..=32).contains(&other));
        }
        // A byte of an op, and one past them.
        for at in 1..good.len() {
            let mut damaged = good.clone();
            damaged[at] ^= 0x10;
            assert_eq!(taken(&damaged), at <= 14 * count);
        }
    }
    let mut long = vec![0; 600];
    for length in 0..long.len() {
        assert_eq!(taken(&long[..length]), length == plain::HOLDBACK);
    }
    long[0] = 40;
    assert!(!taken(&long[..1 + 14 * 40]));
    // Before it the log is tested, and after it the op.
    let (mut unsound, mut bad) = ([0; 32], [0; 448]);
    let answer = plain::holdback_deliver(&mut unsound, &[], &mut bad);
    assert_eq!(answer, Err(Refusal::Unsound));
    assert_eq!((unsound, bad), ([0; 32], [0; 448]));
}

/// Logs, ops and holdbacks of every kind: answers and bytes are those of the rule.
#[test]
fn as_the_rule_says() {
    let mut rng = Rng(32);
    let mut seen: BTreeMap<String, usize> = BTreeMap::new();
    let mut most = 0;
    for _ in 0..40 {
        let ops: Vec<Op> = all(&machines(&mut rng, 50)).ops().collect();
        // Now and then with another byte.
        let some = |rng: &mut Rng| {
            let mut bytes = rng.pick(&ops).as_bytes().to_vec();
            if rng.below(4) == 0 {
                bytes[rng.below(14)] = rng.pick(&[0, 1, 2, 3, 4, 5, 8, 9, 254, 255]);
            }
            bytes
        };
        for _ in 0..100 {
            let held = rng.below(ops.len());
            let mut buf = vec![0xa5; 32 + 14 * (held + rng.below(20)) + rng.below(14)];
            plain::make(&mut buf).unwrap();
            for op in &ops[..held] {
                plain::deliver(&mut buf, op.as_bytes()).unwrap();
            }
            let count = rng.pick(&[0, 1, 5, 20, 31, 32]);
            let mut waiting: Vec<Vec<u8>> = (0..count).map(|_| some(&mut rng)).collect();
            if rng.below(3) == 0 {
                // Those that come next, so that many are taken.
                let next = ops[held..].iter().skip(1).take(count);
                waiting = next.map(|op| op.as_bytes().to_vec()).collect();
                shuffle(&mut rng, &mut waiting);
            }
            let mut op = ops[held].as_bytes().to_vec();
            match rng.below(6) {
                0 => op[6 + rng.below(8)] = 0,
                1..=3 => op = some(&mut rng),
                _ => {}
            }
            let mut lent = bytes_of(&waiting);
            match rng.below(60) {
                0 => op.truncate(13),
                1 => lent[rng.below(449)] ^= 1,
                2 => lent.truncate(448),
                3 => buf[1] ^= 1,
                _ => {}
            }
            let (mut ruled, mut left) = (buf.clone(), lent.clone());
            let answer = plain::holdback_deliver(&mut buf, &op, &mut lent);
            assert_eq!(answer, by_rule(&mut ruled, &op, &mut left));
            assert!(buf == ruled && lent == left);
            let kind = match answer {
                Ok(Delivery::Accepted(end)) => {
                    most = most.max((end - 32) / 14 - held);
                    "accepted".to_string()
                }
                other => format!("{other:?}"),
            };
            *seen.entry(kind).or_default() += 1;
        }
    }
    // Had it, waiting, accepted, and nine refusals: 5 is none of them.
    assert!(!seen.contains_key("Err(Early)"));
    assert_eq!(seen.len(), 12, "{seen:?}");
    assert!(seen.values().all(|&count| count > 10), "{seen:?}");
    assert!(most > 15, "{most}");
}

/// A bundle or a merge does not look into a holdback; offered once more with a
/// new one, all that can be taken is.
#[test]
fn after_a_merge() {
    let mut rng = Rng(33);
    for _ in 0..50 {
        let met = all(&machines(&mut rng, 30));
        let ops: Vec<Op> = met.ops().collect();
        let (mut log, mut holdback) = (Log::new(), Holdback::new());
        for op in &ops[ops.len() / 2..] {
            log.deliver_with_holdback(op, &mut holdback).unwrap();
        }
        let mut half = Log::new();
        for op in &ops[..ops.len() * 3 / 4] {
            half.deliver(op).unwrap();
        }
        let before = holdback.clone();
        log.merge(&half).unwrap();
        assert_eq!(holdback, before);
        for op in take(&mut holdback).ops() {
            log.deliver_with_holdback(op, &mut holdback).unwrap();
        }
        assert_eq!((&log, &holdback), (&met, &Holdback::new()));
    }
}

#[test]
fn words() {
    let mut holdback = Holdback::default();
    assert_eq!(format!("{holdback:?}"), "[]");
    let mut from = Log::new();
    from.add(replica(2), Node::ROOT).unwrap();
    let op = from.remove(replica(2), node(513)).unwrap();
    Log::new().deliver_with_holdback(op, &mut holdback).unwrap();
    assert_eq!(
        format!("{holdback:?}"),
        "[[2, 2, 2, 1, 0, 0, 0, 1, 0, 0, 0, 0, 0, 0]]"
    );
    assert_eq!(holdback.as_ref(), holdback.as_bytes());
    assert_eq!(plain::HOLDBACK, 1 + Holdback::CAPACITY * Op::LENGTH);
    assert_eq!(
        Refusal::HoldbackFull.to_string(),
        "the op is early, and the holdback is full"
    );
}
