//! Random logs for the tests.

#![allow(dead_code)]

use outline::{plain, Log, Node, Refusal, Replica};

/// A small deterministic source of numbers: SplitMix64.
pub struct Rng(pub u64);

impl Rng {
    pub fn next(&mut self) -> u64 {
        self.0 = self.0.wrapping_add(0x9e37_79b9_7f4a_7c15);
        let mut z = self.0;
        z = (z ^ (z >> 30)).wrapping_mul(0xbf58_476d_1ce4_e5b9);
        z = (z ^ (z >> 27)).wrapping_mul(0x94d0_49bb_1331_11eb);
        z ^ (z >> 31)
    }

    pub fn below(&mut self, limit: usize) -> usize {
        (self.next() % limit as u64) as usize
    }

    pub fn pick<T: Copy>(&mut self, from: &[T]) -> T {
        from[self.below(from.len())]
    }
}

pub fn replica(number: u8) -> Replica {
    Replica::new(number).unwrap()
}

pub fn node(number: u16) -> Node {
    Node::from_number(number).unwrap()
}

/// Issues something at random.
pub fn issue(rng: &mut Rng, log: &mut Log, me: Replica) {
    let nodes: Vec<Node> = log.tree().nodes().collect();
    let (a, b) = (rng.pick(&nodes), rng.pick(&nodes));
    let issued = match rng.below(8) {
        0..=3 => log.add(me, a),
        4 => log.remove(me, a),
        _ => log.move_to(me, a, b),
    };
    let expected = [
        Refusal::Unknown,
        Refusal::Marked,
        Refusal::Cycle,
        Refusal::Exhausted,
    ];
    if let Err(why) = issued {
        assert!(expected.contains(&why), "{why}");
    }
    assert_eq!(plain::end(log.as_bytes()), Ok(log.as_bytes().len()));
}

/// The logs of eight machines that issue and now and then take what one other
/// has.
pub fn machines(rng: &mut Rng, steps: usize) -> Vec<Log> {
    let mut logs = vec![Log::new(); 8];
    for _ in 0..steps {
        let at = rng.below(8);
        if rng.below(4) == 0 {
            let other = logs[rng.below(8)].clone();
            logs[at].merge(&other).unwrap();
        }
        issue(rng, &mut logs[at], replica(at as u8 + 1));
    }
    logs
}

/// The log of all that some hold.
pub fn all(logs: &[Log]) -> Log {
    let mut all = Log::new();
    for log in logs {
        all.merge(log).unwrap();
    }
    all
}

/// A chain, each op counting all before, in which the replicas take turns from
/// the highest to the lowest: in file order one or two ops come over in a round.
pub fn interleaved(ops: usize) -> Log {
    let mut log = Log::new();
    let mut parent = Node::ROOT;
    for (me, _) in Replica::all().rev().cycle().zip(0..ops) {
        parent = log.add(me, parent).unwrap().node();
    }
    log
}
