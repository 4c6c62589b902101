//! Looking at an outline: list, path, ops.

use super::{counts, Command};
use crate::ask::{Ask, Opt};
use crate::input;
use crate::judged::{judged, Id, Judged};
use crate::report::Report;
use crate::trouble::{self, Tried};
use outline::plain::{self, LONGEST_PATH};
use outline::{Kind, Node, View};
use std::array;
use std::fmt::Write;

const SKIPPING: Opt = Opt::flag("--skipping", "leave out removed nodes, with all below them");

pub const LIST: Command = Command {
    name: "list",
    operands: "FILE",
    takes: 1..=1,
    options: &[SKIPPING],
    does: "print the outline as an indented tree",
    more: "
The keeping view, which is the usual one, shows a removed node if something below it
is not removed. With --plain it is a line for each node: depth, node, and k or, for a
removed one, r.
",
    example: "seat new news.outline
seat add --as 1 news.outline 0
seat add --as 1 news.outline 257
seat list news.outline
seat list --plain news.outline",
    run: list,
};

fn list(ask: &Ask) -> Tried<Report> {
    let log = input::log(ask.operand(0))?;
    let view = match ask.has(SKIPPING) {
        true => View::Skipping,
        false => View::Keeping,
    };
    let listing = log.listing(view);
    if ask.is_plain() {
        return Ok(Report::text(listing.as_str().to_owned()));
    }
    let mut text = String::new();
    for line in &listing {
        let mark = if line.removed { " (removed)" } else { "" };
        let _ = writeln!(text, "{}{}{mark}", "  ".repeat(line.depth), line.node);
    }
    Ok(Report::text(text))
}

pub const PATH: Command = Command {
    name: "path",
    operands: "FILE NODE",
    takes: 2..=2,
    options: &[],
    does: "print the way from a node up to the root",
    more: "
With --plain the numbers stand in a line with spaces between them.
",
    example: "seat new news.outline
seat add --as 1 news.outline 0
seat path news.outline 257",
    run: path,
};

fn path(ask: &Ask) -> Tried<Report> {
    let (name, node) = (ask.operand(0), ask.node(1)?);
    let log = input::log(name)?;
    let mut entries = [0; LONGEST_PATH];
    let count = plain::path(log.as_bytes(), node, &mut entries).map_err(trouble::refused(name))?;
    let path = entries[..count].iter();
    if ask.is_plain() {
        let nodes: Vec<String> = path.map(u16::to_string).collect();
        return Ok(Report::text(nodes.join(" ") + "\n"));
    }
    let tree = log.tree();
    let removed = |node| Node::from_number(node).is_some_and(|node| tree.is_removed(node));
    let mark = |node| if removed(node) { " (removed)" } else { "" };
    let nodes: Vec<String> = path.map(|&node| format!("{node}{}", mark(node))).collect();
    Ok(Report::text(nodes.join(" under ") + "\n"))
}

pub const OPS: Command = Command {
    name: "ops",
    operands: "FILE",
    takes: 1..=1,
    options: &[],
    does: "print the ops in the order in which they are judged",
    more: "
Each line is an op: seat:sequence, kind, node, parent, the eight counts of what its
seat held when it was issued, timestamp, and outcome: 1 applied, 2 or 3 a move that
lost, with the reason. With --plain the kind is its number (1 add, 2 remove, 3 upward
move, 4 downward move), a remove has the parent 0, and there are no headings and no
reasons.
",
    example: "seat new news.outline
seat add --as 1 news.outline 0
seat ops news.outline",
    run: ops,
};

fn ops(ask: &Ask) -> Tried<Report> {
    let log = input::log(ask.operand(0))?;
    let all = judged(&log);
    let text = match ask.is_plain() {
        true => all.iter().map(plain_line).collect(),
        false => table(&all),
    };
    Ok(Report::text(text))
}

fn plain_line(judged: &Judged) -> String {
    let op = &judged.op;
    format!(
        "{} {} {} {} {} {} {}\n",
        Id::of(op),
        op.kind().number(),
        op.node(),
        op.parent().unwrap_or(Node::ROOT),
        counts(&op.vector(), ","),
        judged.timestamp,
        judged.outcome()
    )
}

const HEADINGS: [&str; 7] = [
    "op",
    "kind",
    "node",
    "parent",
    "counts",
    "timestamp",
    "outcome",
];

fn table(all: &[Judged]) -> String {
    let mut rows = vec![HEADINGS.map(String::from)];
    rows.extend(all.iter().map(row));
    let widths: [usize; 7] = array::from_fn(|column| {
        let widths = rows.iter().map(|row| row[column].len());
        widths.max().unwrap_or(0)
    });
    let mut text = String::new();
    for row in &rows {
        let cells = row
            .iter()
            .zip(widths)
            .map(|(cell, width)| format!("{cell:<width$}"));
        let line = cells.collect::<Vec<_>>().join("  ");
        let _ = writeln!(text, "{}", line.trim_end());
    }
    text
}

fn row(judged: &Judged) -> [String; 7] {
    let op = &judged.op;
    let kind = match op.kind() {
        Kind::Add => "add",
        Kind::Remove => "remove",
        Kind::MoveUp => "move up",
        Kind::MoveDown => "move down",
    };
    let outcome = match judged.why() {
        Some(why) => format!("{} {why}", judged.outcome()),
        None => judged.outcome().to_string(),
    };
    [
        Id::of(op).to_string(),
        kind.to_owned(),
        op.node().to_string(),
        op.parent()
            .map_or(String::new(), |parent| parent.to_string()),
        counts(&op.vector(), " "),
        judged.timestamp.to_string(),
        outcome,
    ]
}
