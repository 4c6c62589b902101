//! Numbers of replicas, nodes, kinds, outcomes and refusals.

mod common;

use common::{node, replica};
use outline::{plain, Kind, Log, Node, Outcome, Refusal, Replica};

#[test]
fn replicas() {
    for number in 0..=255 {
        let is_one = (1..=8).contains(&number);
        assert_eq!(Replica::new(number).is_some(), is_one);
        assert_eq!(
            Replica::try_from(number).map(u8::from),
            if is_one {
                Ok(number)
            } else {
                Err(Refusal::Malformed)
            }
        );
    }
    assert_eq!(Replica::all().count(), 8);
    assert_eq!(format!("{0} {0:?}", replica(3)), "3 Replica(3)");
}

/// Every number there is: a node has a slot of its own, and no other has one.
#[test]
fn all_node_numbers() {
    let mut slots = vec![0; plain::TABLE];
    for number in 0..=u16::MAX {
        let (s, q) = (usize::from(number / 256), usize::from(number % 256));
        let slot = match (s, q) {
            (0, 0) => Some(0),
            (1..=8, 1..=255) => Some(255 * (s - 1) + q),
            _ => None,
        };
        assert_eq!(plain::slot(number), slot);
        let node = Node::from_number(number);
        assert_eq!(node.map(Node::slot), slot);
        assert_eq!(node.map(Node::number), slot.map(|_| number));
        assert_eq!(Node::try_from(number), node.ok_or(Refusal::Unknown));
        if let Some(slot) = slot {
            slots[slot] += 1;
        }
    }
    assert_eq!(slots, vec![1; plain::TABLE]);
}

#[test]
fn nodes_of_ops() {
    for number in 0..=255 {
        for sequence in 0..=255 {
            let made = Replica::new(number).and_then(|of| Node::new(of, sequence));
            assert_eq!(plain::node(number, sequence), made.map(Node::number));
            let Some(node) = made else {
                assert!(!(1..=8).contains(&number) || sequence == 0);
                continue;
            };
            assert_eq!(node.number(), u16::from_be_bytes([number, sequence]));
            assert_eq!(node.replica().map(u8::from), Some(number));
            assert_eq!(node.sequence(), Some(sequence));
            assert!(!node.is_root());
        }
    }
    assert_eq!((Node::ROOT.replica(), Node::ROOT.sequence()), (None, None));
    assert!(Node::ROOT.is_root());
    assert_eq!(format!("{0} {0:?}", node(258)), "258 Node(258)");
}

/// The order of a page has a slot for each op there can be.
#[test]
fn all_ops_of_a_page() {
    let mut log = Log::new();
    for me in Replica::all() {
        for _ in 1..=255 {
            log.add(me, Node::ROOT).unwrap();
        }
    }
    let page = log.page();
    // Each counts all before it, so they are judged as they were issued.
    let all = Replica::all().flat_map(|me| (1..=255).map(move |sequence| (me, sequence)));
    assert!(page.order().eq(all));
    assert_eq!((page.len(), plain::ORDER), (2040, plain::TABLE - 1));
}

#[test]
fn numbers_of_enums() {
    for number in 0..=255 {
        let refusal = Refusal::from_number(number);
        assert_eq!(refusal.is_some(), (1..=14).contains(&number));
        assert!(refusal.is_none_or(|refusal| refusal.number() == number));
        let kind = Kind::from_number(number);
        assert_eq!(kind.is_some(), (1..=4).contains(&number));
        assert!(kind.is_none_or(|kind| kind.number() == number));
        let outcome = Outcome::from_number(number);
        assert_eq!(outcome.is_some(), (1..=3).contains(&number));
        assert!(outcome.is_none_or(|outcome| outcome.number() == number));
    }
    assert!(Refusal::ALL.windows(2).all(|pair| pair[0] < pair[1]));
}
