//! Pages: true after every call with them that accepts, how many ops are taken
//! back, and what is left as it was.

mod common;

use common::{all, interleaved, machines, node, replica, Rng};
use outline::{Delivery, Holdback, Log, Node, Op, Outcome, Page, Refusal, Replica, Vector};
use std::cmp::Reverse;

/// By what ops are sorted for judging: the longest chain of ops that it ends, the
/// kind, and the replicas from the highest on.
type Key = (usize, u8, Reverse<Replica>);

/// The ops of a log in judging order, worked out from what the format says.
fn judging_order(log: &Log) -> Vec<(Key, Op)> {
    let mut sorted: Vec<(Key, Op)> = vec![];
    for op in log.ops() {
        let counted = sorted
            .iter()
            .filter(|(_, seen)| op.vector().count(seen.replica()) >= seen.sequence());
        let chain = 1 + counted.map(|((chain, ..), _)| *chain).max().unwrap_or(0);
        let key = (chain, op.kind().number(), Reverse(op.replica()));
        sorted.push((key, op));
    }
    sorted.sort_by_key(|(key, _)| *key);
    sorted
}

/// How many ops of a log are judged after one of them.
fn after(log: &Log, op: &Op) -> usize {
    let order = judging_order(log);
    let place = order.iter().position(|(_, held)| held == op).unwrap();
    order.len() - 1 - place
}

fn is_true(page: &Page, log: &Log) -> bool {
    *page == log.page()
}

/// Two nodes under the root, made as replica 1, and a log that has them.
fn two_nodes() -> (Log, Node, Node) {
    let mut log = Log::new();
    let a = log.add(replica(1), Node::ROOT).unwrap().node();
    let b = log.add(replica(1), Node::ROOT).unwrap().node();
    (log, a, b)
}

/// Each of two nodes is moved below the other; the move that is judged first
/// comes last.
#[test]
fn late_move() {
    let (mut one, a, b) = two_nodes();
    let mut two = one.clone();
    let first = two.move_to(replica(2), a, b).unwrap();
    one.move_to(replica(1), b, a).unwrap();

    let (mut log, mut page) = (Log::new(), Page::new());
    for op in one.ops() {
        let end = log.as_bytes().len() + Op::LENGTH;
        let answer = log.deliver_with_page(op, &mut page);
        assert_eq!(answer, Ok((Delivery::Accepted(end), 0)));
        assert!(is_true(&page, &log));
    }
    assert_eq!(
        (page.parent(a), page.parent(b)),
        (Some(Node::ROOT), Some(a))
    );
    let answer = log.deliver_with_page(first, &mut page);
    assert_eq!(answer, Ok((Delivery::Accepted(88), 1)));
    assert!(is_true(&page, &log));
    assert_eq!(
        (page.parent(a), page.parent(b)),
        (Some(b), Some(Node::ROOT))
    );
    let judged = [(1, 1), (1, 2), (2, 1), (1, 3)].map(|(s, q)| (replica(s), q));
    assert!(page.order().eq(judged));
    let outcomes = judged.map(|(replica, sequence)| page.outcome_of(replica, sequence));
    let applied = Some(Outcome::Applied);
    let lost = Some(Outcome::WouldCloseCircle);
    assert_eq!(outcomes, [applied, applied, applied, lost]);
}

/// Ops of machines that met now and then, in any order in which they are taken.
#[test]
fn any_order() {
    let mut rng = Rng(61);
    let (mut late, mut most) = (0, 0);
    for round in 0..12 {
        let met = all(&machines(&mut rng, 10 + 6 * round));
        let mut left: Vec<Op> = met.ops().collect();
        let (mut log, mut page) = (Log::new(), Page::new());
        while !left.is_empty() {
            let place = rng.below(left.len().min(20));
            let op = left[place];
            let (was, before) = (log.clone(), page.clone());
            match log.deliver_with_page(op, &mut page) {
                Ok((answer, taken_back)) => {
                    assert_eq!(was.clone().deliver(op), Ok(answer));
                    assert_eq!(answer, Delivery::Accepted(log.as_bytes().len()));
                    assert_eq!(taken_back, after(&log, &op));
                    assert!(is_true(&page, &log));
                    late += usize::from(taken_back > 0);
                    most = most.max(taken_back);
                    left.remove(place);
                }
                answer => {
                    assert_eq!(answer, Err(Refusal::Early));
                    assert_eq!((&log, &page), (&was, &before));
                }
            }
        }
        assert_eq!(log, met);
        let order = judging_order(&met);
        assert!(page
            .order()
            .eq(order.iter().map(|(_, op)| (op.replica(), op.sequence()))));
    }
    assert!(late > 100 && most > 10, "{late} {most}");
}

/// Random issues with a page do what those without it do, and take nothing back.
#[test]
fn issues() {
    let mut rng = Rng(62);
    let (mut log, mut page) = (Log::new(), Page::new());
    let mut refused = 0;
    for _ in 0..300 {
        let nodes: Vec<Node> = page.nodes().collect();
        let (a, b) = (rng.pick(&nodes), rng.pick(&nodes));
        let me = replica(1 + rng.below(8) as u8);
        let (mut plainly, before) = (log.clone(), page.clone());
        let (expected, issued) = match rng.below(8) {
            0..=3 => (plainly.add(me, a), log.add_with_page(me, a, &mut page)),
            4 => (
                plainly.remove(me, a),
                log.remove_with_page(me, a, &mut page),
            ),
            _ => (
                plainly.move_to(me, a, b),
                log.move_to_with_page(me, a, b, &mut page),
            ),
        };
        assert_eq!(issued, expected.map(|op| (op, 0)));
        assert_eq!(log, plainly);
        assert!(is_true(&page, &log));
        if issued.is_err() {
            assert_eq!(page, before);
            refused += 1;
        }
    }
    assert!((20..200).contains(&refused), "{refused}");
}

/// What is refused, or was there already, leaves a page as it is, also an old one.
#[test]
fn refused() {
    let (mut log, a, b) = two_nodes();
    let me = replica(1);
    let held = log.op(me, 1).unwrap();
    let old = log.page();
    log.move_to(me, b, a).unwrap();
    let removed = log.add(me, Node::ROOT).unwrap().node();
    log.remove(me, removed).unwrap();
    let mut ahead = log.clone();
    ahead.add(me, Node::ROOT).unwrap();
    let early = ahead.add(me, Node::ROOT).unwrap();
    let mut other = *held.as_bytes();
    other[5] = 1;

    for before in [log.page(), old, Page::new()] {
        let (mut tried, mut page) = (log.clone(), before.clone());
        let mut deliver = |bytes: &[u8]| {
            let answer = tried.deliver_with_page(bytes, &mut page);
            assert_eq!((&tried, &page), (&log, &before));
            answer
        };
        assert_eq!(deliver(held.as_bytes()), Ok((Delivery::HadIt, 0)));
        assert_eq!(deliver(b"?"), Err(Refusal::Length));
        assert_eq!(deliver(&[0; 14]), Err(Refusal::Malformed));
        assert_eq!(deliver(&other), Err(Refusal::Conflict));
        assert_eq!(deliver(early.as_bytes()), Err(Refusal::Early));
        let far = node(2049);
        let answers = [
            tried.add_with_page(me, far, &mut page),
            tried.add_with_page(me, removed, &mut page),
            tried.remove_with_page(me, Node::ROOT, &mut page),
            tried.move_to_with_page(me, a, a, &mut page),
            tried.move_to_with_page(me, a, b, &mut page),
        ];
        let expected = [
            Refusal::Unknown,
            Refusal::Marked,
            Refusal::Unknown,
            Refusal::Unknown,
            Refusal::Cycle,
        ];
        assert_eq!(answers, expected.map(Err));
        assert_eq!((&tried, &page), (&log, &before));
    }
}

/// Every way in that knows nothing of the page: the next call with it takes back
/// all that was held, and the page is true.
#[test]
fn old_pages() {
    let me = replica(1);
    let ways: [fn(&mut Log); 6] = [
        |log| assert!(log.add(replica(1), Node::ROOT).is_ok()),
        |log| assert!(log.remove(replica(1), node(257)).is_ok()),
        |log| assert!(log.move_to(replica(1), node(257), node(258)).is_ok()),
        |log| {
            let op = Log::new().add(replica(2), Node::ROOT).unwrap();
            assert_eq!(log.deliver(op), Ok(Delivery::Accepted(74)));
        },
        |log| {
            let op = Log::new().add(replica(2), Node::ROOT).unwrap();
            let answer = log.deliver_with_holdback(op, &mut Holdback::new());
            assert_eq!(answer, Ok(Delivery::Accepted(74)));
        },
        |log| {
            let mut other = Log::new();
            other.add(replica(2), Node::ROOT).unwrap();
            let bundle = other.bundle_for(&Vector::default());
            assert_eq!(log.open_bundle(&bundle), Ok(1));
        },
    ];
    for change in ways {
        let (start, ..) = two_nodes();
        let mut page = start.page();
        let mut log = start.clone();
        change(&mut log);
        assert!(!is_true(&page, &log));
        // Judged last, and still all count.
        let mut issued = log.clone();
        let mut with = page.clone();
        let (_, taken_back) = issued.add_with_page(me, Node::ROOT, &mut with).unwrap();
        assert_eq!(taken_back, 3);
        assert!(is_true(&with, &issued));
        let late = Log::new().add(replica(3), Node::ROOT).unwrap();
        let answer = log.deliver_with_page(late, &mut page);
        assert_eq!(answer, Ok((Delivery::Accepted(88), 3)));
        assert!(is_true(&page, &log));
        // From here on it is kept again.
        let (_, taken_back) = log.add_with_page(me, Node::ROOT, &mut page).unwrap();
        assert_eq!(taken_back, 0);
        assert!(is_true(&page, &log));
    }
}

/// A page of another log, larger or smaller, is as good as none.
#[test]
fn of_another_log() {
    let mut rng = Rng(63);
    for _ in 0..20 {
        let logs = [rng.below(60), rng.below(60)].map(|steps| all(&machines(&mut rng, steps)));
        let [mut log, other] = logs;
        let held = log.len();
        let (mut page, same) = (other.page(), log == other);
        let me = replica(1 + rng.below(8) as u8);
        let (_, taken_back) = log.add_with_page(me, Node::ROOT, &mut page).unwrap();
        assert_eq!(taken_back, if same { 0 } else { held });
        assert!(is_true(&page, &log));
    }
}

/// Eight machines that never met, one after the other, up to a full log.
#[test]
fn full() {
    let (mut log, mut page) = (Log::new(), Page::new());
    for me in Replica::all() {
        let mut apart = Log::new();
        for sequence in 1..=255 {
            let op = apart.add(me, Node::ROOT).unwrap();
            let (_, taken_back) = log.deliver_with_page(op, &mut page).unwrap();
            let others = usize::from(me.number()) - 1;
            assert_eq!(taken_back, others * (256 - sequence));
        }
        assert!(is_true(&page, &log));
    }
    assert_eq!((page.len(), page.order().len()), (2040, 2040));
    let refused = log.add_with_page(replica(1), Node::ROOT, &mut page);
    assert_eq!(refused, Err(Refusal::Exhausted));
    // A page of nothing is built from all, for the very last op.
    let chain = interleaved(2040);
    let mut log = Log::new();
    let mut ops: Vec<Op> = chain.ops().collect();
    let last = ops.pop().unwrap();
    log.open_bundle(chain.bundle_for(&Vector::default()))
        .unwrap();
    let mut page = Page::default();
    assert_eq!(
        log.deliver_with_page(last, &mut page),
        Ok((Delivery::HadIt, 0))
    );
    assert!(page.is_empty());
    let mut log = Log::new();
    for op in ops {
        log.deliver(op).unwrap();
    }
    let answer = log.deliver_with_page(last, &mut page);
    assert_eq!(answer, Ok((Delivery::Accepted(28_592), 2039)));
    assert!(is_true(&page, &log));
    assert_eq!(page.depth(last.node()), Some(2040));
}

/// A page answers as the tree of its log does.
#[test]
fn reads() {
    let mut rng = Rng(64);
    let mut lost = 0;
    for steps in [0, 1, 5, 40, 150] {
        let log = all(&machines(&mut rng, steps));
        let (page, tree) = (log.page(), log.tree());
        assert_eq!((page.len(), page.is_empty()), (log.len(), log.is_empty()));
        assert!(page.nodes().eq(tree.nodes()));
        assert!(page.nodes().rev().eq(tree.nodes().rev()));
        let far = [node(2303), node(1279)];
        for at in tree.nodes().chain(far) {
            assert_eq!(page.contains(at), tree.contains(at));
            assert_eq!(page.parent(at), tree.parent(at));
            assert_eq!(page.depth(at), tree.depth(at));
            assert!(page.path(at).eq(tree.path(at)));
            assert!(page.children(at).eq(tree.children(at)));
        }
        for op in log.ops() {
            assert_eq!(page.outcome(&op), tree.outcome(&op));
            let by_place = page.outcome_of(op.replica(), op.sequence());
            assert_eq!(by_place, tree.outcome(&op));
            lost += usize::from(by_place != Some(Outcome::Applied));
        }
        for me in Replica::all() {
            assert_eq!(page.outcome_of(me, 0), None);
            let next = log.vector().count(me) + 1;
            assert_eq!(page.outcome_of(me, next), None);
        }
        let back: Vec<(Replica, u8)> = page.order().rev().collect();
        assert!(page.order().eq(back.into_iter().rev()));
        let held = |(me, sequence)| log.op(me, sequence).is_some();
        assert!(page.order().all(held));
    }
    assert!(lost > 0);
    assert_eq!(Page::new(), Log::new().page());
    assert_eq!(format!("{:?}", Page::new()), "{}");
    let (log, ..) = two_nodes();
    let shown = format!("{:?}", log.page());
    assert_eq!(
        shown,
        "{(Replica(1), 1): Some(Applied), (Replica(1), 2): Some(Applied)}"
    );
}
