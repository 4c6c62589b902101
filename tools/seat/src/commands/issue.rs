//! Issuing: add, remove, move, and a column of moves.

use super::{Command, ANOTHER, OUT};
use crate::ask::{Ask, Opt};
use crate::claim::{claim, put_all};
use crate::input;
use crate::judged::Id;
use crate::report::Report;
use crate::trouble::{self, Tried};
use outline::plain::{self, LARGEST, MOST_MOVES, OP};
use outline::{Kind, Log, Node, Op, Refusal};
use std::fmt::Write;

const AS: Opt = Opt::valued(
    "--as",
    "SEAT",
    "issue as this seat, 1 to 8; else as the variable SEAT says",
);
const OPTIONS: &[Opt] = &[AS, OP_OUT];
const OP_OUT: Opt = Opt::valued(
    OUT.name,
    "OUT",
    "put the op into this new file as well, to be posted",
);

pub const ADD: Command = Command {
    name: "add",
    operands: "FILE PARENT",
    takes: 2..=2,
    options: OPTIONS,
    does: "add a node under a parent",
    more: "
The root is 0. The new node's number is 256 times the seat and the number of the
op; with --plain that number is all that is printed.
",
    example: "seat new news.outline\nseat add --as 1 news.outline 0",
    run: |ask| {
        let parent = ask.node(1)?;
        issue(ask, |buf, seat, out| {
            plain::issue_add(buf, seat, parent, out)
        })
    },
};

pub const REMOVE: Command = Command {
    name: "remove",
    operands: "FILE NODE",
    takes: 2..=2,
    options: OPTIONS,
    does: "mark a node as removed",
    more: "
The mark stays for good. The node keeps its place and its number, and what is below it
is not marked. Nothing can be added under a removed node or moved there, and it cannot
be moved; what is below it can.
With --plain the op is printed, as 1:3.
",
    example: "seat new news.outline
seat add --as 1 news.outline 0
seat remove --as 1 news.outline 257",
    run: |ask| {
        let node = ask.node(1)?;
        issue(ask, |buf, seat, out| {
            plain::issue_remove(buf, seat, node, out)
        })
    },
};

pub const MOVE: Command = Command {
    name: "move",
    operands: "FILE NODE PARENT",
    takes: 3..=3,
    options: OPTIONS,
    does: "move a node, with all below it, under another parent",
    more: "
The move is upward if the node was deeper than its new parent, else downward. Moves
are judged by rising timestamp. If two clash that were issued from the same ops,
the upward one wins, and of two of one kind the higher seat's. `seat ops` shows the
order once the seats have met, and which moves lost.
With --plain the op is printed, as 1:3.
",
    example: "seat new news.outline
seat add --as 1 news.outline 0
seat add --as 1 news.outline 0
seat move --as 1 news.outline 258 257",
    run: |ask| {
        let (node, parent) = (ask.node(1)?, ask.node(2)?);
        issue(ask, |buf, seat, out| {
            plain::issue_move(buf, seat, node, parent, out)
        })
    },
};

pub const COLUMN: Command = Command {
    name: "column",
    operands: "FILE [NODE]... PARENT",
    takes: 2..=super::ANY,
    options: OPTIONS,
    does: "move up to 16 nodes under one parent: all of them, or none",
    more: "
The nodes are moved one after another in the order of the list. If one of the
moves is refused, none is issued. The column is whole at issue only: once the moves
of other seats have come, some of its moves may be applied and others not.
With --plain the ops are printed, as 1:3, a line for each.
",
    example: "seat new news.outline
seat add --as 1 news.outline 0
seat add --as 1 news.outline 0
seat add --as 1 news.outline 0
seat column --as 1 news.outline 257 258 259",
    run: |ask| {
        let last = ask.operands().len() - 1;
        let nodes = (1..last)
            .map(|at| ask.node(at))
            .collect::<Tried<Vec<_>>>()?;
        let parent = ask.node(last)?;
        issue(ask, |buf, seat, out| {
            plain::issue_moves(buf, seat, &nodes, parent, out)
        })
    },
};

/// Has the library issue ops, and changes the file.
fn issue(
    ask: &Ask,
    call: impl FnOnce(&mut [u8], u8, &mut [u8]) -> Result<usize, Refusal>,
) -> Tried<Report> {
    let seat = ask.seat(AS)?;
    let name = ask.operand(0);
    let names: Vec<_> = [Some(name), ask.value(OP_OUT)]
        .into_iter()
        .flatten()
        .collect();
    let stream = input::stream(&[name])?;
    let mut claims = claim(&names)?.into_iter();
    let (file, out) = (claims.next().flatten(), claims.next());
    if let Some(Some(out)) = &out {
        out.is_free(ANOTHER)?;
    }
    let old = input::claimed(name, file.as_ref(), &stream)?;
    let new = issued(&old, |buf, out| call(buf, seat, out)).map_err(trouble::refused(name))?;

    let ops: Vec<Op> = new.ops_beyond(&old.vector()).collect();
    let bodies = ops.iter().flat_map(|op| *op.as_bytes()).collect();
    // The log first: an op that others have and its own log lacks would be issued
    // again as another one.
    let mut files = vec![(file, new.as_bytes().to_vec())];
    // Without an op there is no file of ops.
    let out = out.filter(|out| out.is_none() || !ops.is_empty());
    files.extend(out.map(|out| (out, bodies)));
    let streamed = put_all(files)?;
    let text = match ask.is_plain() {
        true => plain_lines(&ops),
        false => told(&ops),
    };
    Ok(Report::changed(streamed, text))
}

/// The log after a call that issues, on a buffer with room for the largest.
fn issued(
    old: &Log,
    call: impl FnOnce(&mut [u8], &mut [u8]) -> Result<usize, Refusal>,
) -> Result<Log, Refusal> {
    let mut buf = [0; LARGEST];
    buf[..old.as_bytes().len()].copy_from_slice(old.as_bytes());
    let end = call(&mut buf, &mut [0; MOST_MOVES * OP])?;
    Log::from_bytes(&buf[..end])
}

/// What scripts want to know: the node that was added, or the ops.
fn plain_lines(ops: &[Op]) -> String {
    let line = |op: &Op| match op.kind() {
        Kind::Add => format!("{}\n", op.node()),
        _ => format!("{}\n", Id::of(op)),
    };
    ops.iter().map(line).collect()
}

fn told(ops: &[Op]) -> String {
    let mut text = String::new();
    for op in ops {
        let (id, node, parent) = (Id::of(op), op.node(), op.parent().unwrap_or(Node::ROOT));
        let _ = match op.kind() {
            Kind::Add => writeln!(text, "{id} added {node} under {parent}"),
            Kind::Remove => writeln!(text, "{id} removed {node}"),
            Kind::MoveUp => writeln!(text, "{id} put {node} under {parent}, upward"),
            Kind::MoveDown => writeln!(text, "{id} put {node} under {parent}, downward"),
        };
    }
    if ops.is_empty() {
        text.push_str("nothing to move\n");
    }
    text
}
