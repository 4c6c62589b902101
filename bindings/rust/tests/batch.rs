//! Batches: the same as their moves one by one, or nothing at all.

mod common;

use common::{all, machines, node, replica, Rng};
use outline::{plain, Batch, Delivery, Kind, Log, Node, Op, Outcome, Page, Refusal, Replica};

/// The moves of a batch one by one, up to the first that is refused.
fn in_turn(log: &mut Log, me: Replica, nodes: &[Node], parent: Node) -> Result<Vec<Op>, Refusal> {
    let moves = nodes.iter().map(|&node| log.move_to(me, node, parent));
    moves.collect()
}

/// A heading, a chain of three below it, and twenty nodes under the root.
fn start() -> (Log, Vec<Node>) {
    let (me, mut log) = (replica(1), Log::new());
    let mut nodes = vec![log.add(me, Node::ROOT).unwrap().node()];
    for _ in 0..3 {
        let parent = nodes[nodes.len() - 1];
        nodes.push(log.add(me, parent).unwrap().node());
    }
    nodes.extend((0..20).map(|_| log.add(me, Node::ROOT).unwrap().node()));
    (log, nodes)
}

#[test]
fn accepted() {
    let (mut log, nodes) = start();
    let column = &nodes[4..20];
    for parent in [nodes[0], nodes[3], Node::ROOT, nodes[20]] {
        let mut singly = log.clone();
        let expected = in_turn(&mut singly, replica(2), column, parent).unwrap();
        let moves = log.move_all_to(replica(2), column, parent).unwrap();
        assert_eq!(log, singly);
        assert_eq!((moves.len(), moves.is_empty()), (16, false));
        assert!(moves.ops().eq(expected.iter().copied()));
        assert!(moves.ops().rev().eq(expected.iter().rev().copied()));
        assert_eq!(moves.as_bytes().len(), 16 * Op::LENGTH);
        assert_eq!(format!("{moves:?}"), format!("{expected:?}"));
        assert!(column.iter().all(|&node| log.parent(node) == Some(parent)));
    }
    assert_eq!(log.vector().count(replica(2)), 64);
}

/// The second move of a node finds it where the first has put it.
#[test]
fn one_node_twice() {
    let (mut log, nodes) = start();
    let moves = log.move_all_to(replica(1), &[nodes[4], nodes[4]], nodes[1]);
    let kinds = moves.unwrap().ops().map(|op| op.kind()).collect::<Vec<_>>();
    assert_eq!(kinds, [Kind::MoveDown, Kind::MoveUp]);
    // So does that of a node below one that was moved.
    let (mut log, nodes) = start();
    log.move_to(replica(1), nodes[5], nodes[4]).unwrap();
    let moves = log.move_all_to(replica(1), &[nodes[4], nodes[5]], nodes[1]);
    let kinds = moves.unwrap().ops().map(|op| op.kind()).collect::<Vec<_>>();
    assert_eq!(kinds, [Kind::MoveDown, Kind::MoveUp]);
}

/// One move of sixteen is refused, wherever it stands.
#[test]
fn refused() {
    let (mut log, nodes) = start();
    let me = replica(1);
    let (removed, parent) = (nodes[20], nodes[3]);
    log.remove(me, removed).unwrap();
    let before = log.clone();
    let bad = [
        (node(2049), Refusal::Unknown),
        (Node::ROOT, Refusal::Unknown),
        (parent, Refusal::Unknown),
        (removed, Refusal::Marked),
        (nodes[1], Refusal::Cycle),
    ];
    for place in 0..16 {
        for (worse, why) in bad {
            let mut column = nodes[4..20].to_vec();
            column[place] = worse;
            assert_eq!(log.move_all_to(me, &column, parent), Err(why));
            // Of two that are refused the first counts.
            let first = [worse, removed, node(2049)];
            assert_eq!(log.move_all_to(me, &first, parent), Err(why));
        }
    }
    let column = &nodes[4..20];
    assert_eq!(log.move_all_to(me, column, removed), Err(Refusal::Marked));
    let nowhere = log.move_all_to(me, column, node(2049));
    assert_eq!(nowhere, Err(Refusal::Unknown));
    assert_eq!(log, before);
}

#[test]
fn lengths() {
    let (mut log, nodes) = start();
    let before = log.clone();
    for count in 17..=20 {
        let answer = log.move_all_to(replica(1), &nodes[4..4 + count], nodes[0]);
        assert_eq!(answer, Err(Refusal::Length));
    }
    // Without nodes nothing is done, whatever the parent.
    for parent in [Node::ROOT, nodes[0], node(2049)] {
        let moves = log.move_all_to(replica(1), &[], parent).unwrap();
        assert!(moves.is_empty() && moves.ops().len() == 0);
        assert_eq!(moves.as_bytes(), []);
    }
    assert_eq!(log, before);
    assert_eq!((plain::MOST_MOVES, Batch::MOST), (16, 16));
}

/// A replica that has fewer ops left than there are moves.
#[test]
fn exhausted() {
    let (mut log, nodes) = start();
    let me = replica(2);
    for _ in 0..250 {
        log.add(me, Node::ROOT).unwrap();
    }
    let before = log.clone();
    let six = log.move_all_to(me, &nodes[4..10], nodes[0]);
    assert_eq!((six, &log), (Err(Refusal::Exhausted), &before));
    assert_eq!(
        log.move_all_to(me, &nodes[4..9], nodes[0]).unwrap().len(),
        5
    );
    let one = log.move_all_to(me, &nodes[9..10], nodes[0]);
    assert_eq!(one, Err(Refusal::Exhausted));
    assert!(log.move_all_to(me, &[], nodes[0]).unwrap().is_empty());
}

/// The plain call: the order of its tests, and what it leaves of lent memory.
#[test]
fn plainly() {
    let (log, nodes) = start();
    let nodes: Vec<u16> = nodes.into_iter().map(Node::number).collect();
    let (parent, column) = (nodes[0], &nodes[4..20]);
    let end = log.as_bytes().len();
    let mut buf = log.as_bytes().to_vec();
    buf.resize(end + 300, 0xa5);
    let (before, mut out) = (buf.clone(), [7; 240]);
    let mut unchanged = |length: usize, replica, nodes: &[u16], parent, room: usize| {
        let lent = &mut buf[..length];
        let answer = plain::issue_moves(lent, replica, nodes, parent, &mut out[..room]);
        assert_eq!((&buf, out), (&before, [7; 240]));
        answer
    };
    let answer = unchanged(end - 1, 9, &nodes[4..21], parent, 0);
    assert_eq!(answer, Err(Refusal::Unsound));
    let answer = unchanged(end, 9, &nodes[4..21], parent, 240);
    assert_eq!(answer, Err(Refusal::Length));
    for count in 1..=16 {
        let answer = unchanged(end, 9, &column[..count], parent, 14 * count - 1);
        assert_eq!(answer, Err(Refusal::Length));
    }
    let answer = unchanged(end, 9, column, 1, 224);
    assert_eq!(answer, Err(Refusal::Malformed));
    assert_eq!(unchanged(end, 9, &[], 1, 0), Err(Refusal::Malformed));
    assert_eq!(unchanged(end, 1, column, 1, 224), Err(Refusal::Unknown));
    let answer = unchanged(end, 1, &nodes[1..3], nodes[3], 28);
    assert_eq!(answer, Err(Refusal::Cycle));
    for room in [0, 13, 14, 16 * 14 - 1] {
        let answer = unchanged(end + room, 1, column, parent, 224);
        assert_eq!(answer, Err(Refusal::NoRoom));
    }
    // Accepted, and nothing to write.
    assert_eq!(unchanged(end, 1, &[], 1, 0), Ok(end));
    assert_eq!(unchanged(end + 300, 8, &[], 65_535, 240), Ok(end));

    let answer = plain::issue_moves(&mut buf[..end + 224], 2, column, parent, &mut out);
    assert_eq!(answer, Ok(end + 224));
    assert_eq!(
        (&buf[end..end + 224], &buf[end + 224..]),
        (&out[..224], &[0xa5; 76][..])
    );
    assert_eq!(out[224..], [7; 16]);
}

/// Random lists, of which many are accepted.
#[test]
fn random() {
    let mut rng = Rng(71);
    let (mut accepted, mut refused) = (0, 0);
    for steps in 0..60 {
        let mut log = all(&machines(&mut rng, steps));
        let nodes: Vec<Node> = log.tree().nodes().collect();
        for _ in 0..10 {
            let me = replica(1 + rng.below(8) as u8);
            let count = rng.below(7);
            let column: Vec<Node> = (0..count).map(|_| rng.pick(&nodes)).collect();
            let parent = rng.pick(&nodes);
            let (before, mut singly) = (log.clone(), log.clone());
            let expected = in_turn(&mut singly, me, &column, parent);
            match log.move_all_to(me, &column, parent) {
                Ok(moves) => {
                    assert_eq!(Ok(moves.ops().collect()), expected);
                    assert_eq!(log, singly);
                    accepted += count;
                }
                Err(why) => {
                    assert_eq!((Err(why), &log), (expected, &before));
                    refused += 1;
                }
            }
        }
    }
    assert!(accepted > 100 && refused > 100, "{accepted} {refused}");
}

/// A batch is whole at issue only: later on each move has an outcome of its own.
#[test]
fn outcomes() {
    let (mut log, nodes) = start();
    let (heading, column) = (nodes[10], &nodes[4..7]);
    let mut other = log.clone();
    let moves = log.move_all_to(replica(1), column, heading).unwrap();
    let outcomes = |log: &Log| {
        let tree = log.tree();
        let outcomes = moves.ops().map(|op| tree.outcome(&op).unwrap());
        outcomes.collect::<Vec<_>>()
    };
    assert_eq!(outcomes(&log), [Outcome::Applied; 3]);
    let late = other.move_to(replica(2), heading, nodes[4]).unwrap();
    assert!(matches!(log.deliver(late), Ok(Delivery::Accepted(_))));
    let lost = Outcome::WouldCloseCircle;
    let expected = [lost, Outcome::Applied, Outcome::Applied];
    assert_eq!(outcomes(&log), expected);
    assert_eq!(log.parent(nodes[4]), Some(Node::ROOT));
    assert_eq!(log.parent(nodes[5]), Some(heading));
    // Handed over one by one, in turn, the ops come to the same.
    for op in moves.ops() {
        assert!(matches!(other.deliver(op), Ok(Delivery::Accepted(_))));
    }
    assert_eq!(other, log);
}

/// A batch knows nothing of a page: the next call with it takes back all.
#[test]
fn pages() {
    let (mut log, nodes) = start();
    let mut page: Page = log.page();
    log.move_all_to(replica(1), &nodes[4..20], nodes[0])
        .unwrap();
    let held = log.len();
    assert_ne!(page, log.page());
    let (_, taken_back) = log
        .add_with_page(replica(1), Node::ROOT, &mut page)
        .unwrap();
    assert_eq!(taken_back, held);
    assert_eq!(page, log.page());
}
