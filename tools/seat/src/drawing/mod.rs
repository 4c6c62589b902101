//! An outline as a drawing: the root above, children below their parent by rising
//! number; and the moves that lost.

mod arrow;
mod point;
mod sheet;

use crate::judged::{judged, Id, Judged};
use arrow::Arrow;
use outline::{Log, Node, Replica, Tree};
use point::Point;
use sheet::{Sheet, BOX, FAINT, INK, LINE, LOST, MARGIN, RULE};
use std::collections::{BTreeMap, BTreeSet, HashMap};

/// From a node to the one beside it, and to those below it.
const STEP: Point = Point::new(92.0, 80.0);
/// Where the reasons stand in a line.
const REASON: f64 = 220.0;

/// Where each node stands.
type Places = BTreeMap<Node, Point>;

/// The drawing of a log in SVG, with the moves that lost if these are asked for.
pub fn drawing(log: &Log, moves: bool) -> String {
    let tree = log.tree();
    let all = if moves { judged(log) } else { Vec::new() };
    let lost: Vec<&Judged> = all.iter().filter(|it| it.why().is_some()).collect();
    let (places, movers) = (places(&tree), movers(&all));
    let arrows = arrows(&places, &lost);

    let mut sheet = Sheet::default();
    edges(&mut sheet, &tree, &places, &movers);
    // Below the boxes, so that every number can be read.
    arrows.iter().for_each(|arrow| arrow.draw(&mut sheet));
    boxes(&mut sheet, &tree, &places);
    arrows.iter().for_each(|arrow| arrow.label(&mut sheet));
    let losers = lost.iter().map(|it| it.op.replica());
    seats(&mut sheet, movers.into_values().chain(losers).collect());
    reasons(&mut sheet, &lost);

    let nodes = places.len() - 1;
    let removed = places.keys().filter(|&&node| tree.is_removed(node)).count();
    let title = format!("An outline; nodes below the root: {nodes}");
    let lost = lost.len();
    let about = format!("Removed nodes: {removed}. Moves drawn that lost: {lost}.");
    sheet.framed(&title, &about)
}

/// Leaves one beside another, and a parent above the middle of its children.
fn places(tree: &Tree) -> Places {
    let below = tree.descendants(Node::ROOT);
    let nodes: Vec<Node> = std::iter::once(Node::ROOT).chain(below).collect();
    let mut places = Places::new();
    let mut x = MARGIN + BOX.x / 2.0;
    for &node in &nodes {
        let above = tree.parent(node).and_then(|parent| places.get(&parent));
        let y = above.map_or(MARGIN + BOX.y / 2.0, |above| above.y + STEP.y);
        places.insert(node, Point::new(x, y));
        if tree.children(node).next().is_none() {
            x += STEP.x;
        }
    }
    for node in nodes.iter().rev() {
        let children = tree.children(*node).filter_map(|child| places.get(&child));
        let xs: Vec<f64> = children.map(|child| child.x).collect();
        if let ([first, ..], [.., last], Some(place)) = (&xs[..], &xs[..], places.get_mut(node)) {
            place.x = (first + last) / 2.0;
        }
    }
    places
}

/// For each node that hangs where a move put it the seat that moved it.
fn movers(all: &[Judged]) -> HashMap<Node, Replica> {
    let moved = all.iter().filter(|it| it.has_moved());
    moved.map(|it| (it.op.node(), it.op.replica())).collect()
}

/// A line from each node to its parent, in the colour of the seat that moved it there.
fn edges(sheet: &mut Sheet, tree: &Tree, places: &Places, movers: &HashMap<Node, Replica>) {
    let half = Point::new(0.0, BOX.y / 2.0);
    for (node, at) in places {
        let Some(above) = tree.parent(*node).and_then(|parent| places.get(&parent)) else {
            continue;
        };
        let (colour, width) = match movers.get(node) {
            Some(&replica) => (sheet::colour(replica), 2.5),
            None => (RULE, 1.5),
        };
        sheet.line(above.plus(half), at.minus(half), colour, width);
    }
}

/// A box for each node with its number, struck through where it is removed.
fn boxes(sheet: &mut Sheet, tree: &Tree, places: &Places) {
    for (&node, &at) in places {
        let name = match node.is_root() {
            true => "root".into(),
            false => node.to_string(),
        };
        let removed = tree.is_removed(node);
        sheet.node(at, &name, if removed { FAINT } else { INK });
        if removed {
            let half = Point::new(21.0, 0.0);
            sheet.line(at.minus(half), at.plus(half), INK, 1.5);
        }
    }
}

/// An arrow for each move that lost, from its node to the parent that it names.
fn arrows(places: &Places, lost: &[&Judged]) -> Vec<Arrow> {
    let boxes: Vec<Point> = places.values().copied().collect();
    let mut arrows = Vec::new();
    for it in lost {
        let ends = (
            places.get(&it.op.node()),
            it.op.parent().and_then(|it| places.get(&it)),
        );
        if let (Some(&from), Some(&to)) = ends {
            let arrow = Arrow::new(Id::of(&it.op), from, to, &boxes, &arrows);
            arrows.push(arrow);
        }
    }
    arrows
}

/// Which colour is which seat's.
fn seats(sheet: &mut Sheet, seats: BTreeSet<Replica>) {
    if seats.is_empty() {
        return;
    }
    let mut at = sheet.below();
    for seat in seats {
        sheet.dot(at.plus(Point::new(6.0, -4.5)), sheet::colour(seat));
        sheet.text(at.plus(Point::new(20.0, 0.0)), &format!("seat {seat}"), INK);
        at.x += STEP.x;
    }
}

/// Why each of these moves lost.
fn reasons(sheet: &mut Sheet, lost: &[&Judged]) {
    if lost.is_empty() {
        return;
    }
    let mut at = sheet.below();
    sheet.text(
        at,
        "Moves that lost, in the order in which they were judged:",
        FAINT,
    );
    for it in lost {
        at.y += LINE;
        let (id, node, parent) = (Id::of(&it.op), it.op.node(), it.op.parent());
        let parent = parent.unwrap_or(Node::ROOT);
        let (why, outcome) = (it.why().unwrap_or_default(), it.outcome());
        let why = format!("{why} (outcome {outcome})");
        sheet.dot(at.plus(Point::new(6.0, -4.5)), sheet::colour(id.replica));
        sheet.text(
            at.plus(Point::new(20.0, 0.0)),
            &format!("{id}: {node} under {parent}"),
            INK,
        );
        sheet.text(Point::new(REASON, at.y), &why, LOST);
    }
}
