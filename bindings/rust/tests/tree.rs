//! The tree of a log beside the plain calls.

mod common;

use common::{all, machines, node, replica, Rng};
use outline::{plain, Line, Log, Node, Outcome, Tree, View};

/// The lines of a listing, read in another way.
fn read(text: &str) -> Vec<Line> {
    let line = |line: &str| {
        let words: Vec<&str> = line.split(' ').collect();
        Line {
            depth: words[0].parse().unwrap(),
            node: node(words[1].parse().unwrap()),
            removed: words[2] == "r",
        }
    };
    text.lines().map(line).collect()
}

fn check(log: &Log) -> Tree {
    let tree = log.tree();
    let mut parents = [0; plain::TABLE];
    let mut outcomes = [0; plain::TABLE];
    plain::judge(log.as_bytes(), &mut parents, &mut outcomes).unwrap();
    let nodes: Vec<Node> = tree.nodes().collect();
    for number in 0..2400 {
        let Some(node) = Node::from_number(number) else {
            continue;
        };
        let parent = parents[node.slot()];
        let mut path = [0; plain::LONGEST_PATH];
        let length = plain::path(log.as_bytes(), number, &mut path);
        let path: Vec<Node> = path[..length.unwrap_or(0)]
            .iter()
            .map(|&number| common::node(number))
            .collect();
        assert_eq!(tree.contains(node), parent != plain::NO_PARENT);
        let parent = Node::from_number(parent).filter(|_| !node.is_root());
        assert_eq!(tree.parent(node), parent);
        assert!(tree.path(node).eq(path.iter().copied()));
        assert_eq!(tree.depth(node), path.len().checked_sub(1));
        let below = nodes.iter().copied();
        let below = below.filter(|&below| tree.parent(below) == Some(node));
        assert!(tree.children(node).eq(below));
        if !tree.contains(node) {
            assert_eq!(tree.descendants(node).next(), None);
            assert!(!tree.is_removed(node));
        }
    }
    // The order of a listing is that of the descendants.
    for view in [View::Keeping, View::Skipping] {
        let listing = log.listing(view);
        let lines = read(listing.as_str());
        assert!(listing.lines().eq(lines.iter().copied()));
        assert!(log.lines(view).eq(lines.iter().copied()));
        let text: String = lines.iter().map(|line| format!("{line}\n")).collect();
        assert_eq!(text, listing.to_string());
        let shown = |node: &Node| match view {
            View::Keeping => {
                !tree.is_removed(*node) || tree.descendants(*node).any(|b| !tree.is_removed(b))
            }
            View::Skipping => !tree.path(*node).any(|above| tree.is_removed(above)),
        };
        let all = [Node::ROOT].into_iter().chain(tree.descendants(Node::ROOT));
        assert!(all.filter(shown).eq(lines.iter().map(|line| line.node)));
        for line in &lines {
            assert_eq!(Some(line.depth), tree.depth(line.node));
            assert_eq!(line.removed, tree.is_removed(line.node));
        }
    }
    assert_eq!(tree.descendants(Node::ROOT).count() + 1, nodes.len());
    for node in nodes {
        for below in tree.descendants(node) {
            assert!(below != node && tree.path(below).any(|above| above == node));
        }
    }
    for op in log {
        let slot = Node::new(op.replica(), op.sequence()).unwrap().slot();
        assert_eq!(tree.outcome(&op), Outcome::from_number(outcomes[slot]));
        assert!(tree.outcome(&op).is_some());
    }
    tree
}

#[test]
fn random_logs() {
    let mut rng = Rng(5);
    let mut lost = 0;
    for steps in [0, 5, 30, 100, 200] {
        let logs = machines(&mut rng, steps);
        let all = all(&logs);
        let tree = check(&all);
        check(&logs[1]);
        lost += all
            .ops()
            .filter(|op| tree.outcome(op) != Some(Outcome::Applied))
            .count();
    }
    assert!(lost > 0);
}

#[test]
fn deepest() {
    let log = common::interleaved(2040);
    let tree = log.tree();
    let last = tree.descendants(Node::ROOT).last().unwrap();
    assert_eq!(tree.depth(last), Some(2040));
    assert_eq!(tree.path(last).count(), plain::LONGEST_PATH);
    assert_eq!(tree.children(last).next(), None);
}

/// The questions of a log are those of its tree.
#[test]
fn asked_of_the_log() {
    let mut rng = Rng(6);
    let log = all(&machines(&mut rng, 60));
    let tree = log.tree();
    let absent = node(2303);
    for node in tree.nodes().chain([absent]) {
        assert_eq!(log.parent(node), tree.parent(node));
        assert!(log.children(node).eq(tree.children(node)));
        assert!(log.descendants(node).eq(tree.descendants(node)));
        assert!(log.path(node).eq(tree.path(node)));
    }
    assert!(!tree.contains(absent));
}

/// The document's example of two moves that close a circle.
#[test]
fn circle() {
    let mut one = Log::new();
    let a = one.add(replica(1), Node::ROOT).unwrap().node();
    let b = one.add(replica(1), Node::ROOT).unwrap().node();
    let mut two = one.clone();
    let lost = one.move_to(replica(1), b, a).unwrap();
    let won = two.move_to(replica(2), a, b).unwrap();
    assert_eq!(one.tree().outcome(&won), None);
    one.merge(&two).unwrap();
    let tree = check(&one);
    assert_eq!(tree.outcome(&lost), Some(Outcome::WouldCloseCircle));
    assert_eq!(tree.outcome(&won), Some(Outcome::Applied));
    assert_eq!(
        one.listing(View::Keeping).as_str(),
        "0 0 k\n1 258 k\n2 257 k\n"
    );
    assert_eq!(
        format!("{tree:?}"),
        "{Node(0): None, Node(257): Some(Node(258)), Node(258): Some(Node(0))}"
    );
}

/// The tree stays as it was when the log goes on.
#[test]
fn a_tree_stays() {
    let mut log = Log::new();
    let before = log.tree();
    let a = log.add(replica(1), Node::ROOT).unwrap().node();
    assert!(!before.contains(a) && log.tree().contains(a));
    assert_eq!(before.clone(), before);
    assert_ne!(before, log.tree());
    let lines = log.lines(View::Keeping);
    log.remove(replica(1), a).unwrap();
    assert_eq!(lines.count(), 2);
    assert_eq!(log.lines(View::Keeping).count(), 1);
}
