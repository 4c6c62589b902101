//! Drawing an outline.

use super::{many, put_out, Command, OUT};
use crate::ask::{Ask, Opt};
use crate::drawing::drawing;
use crate::input;
use crate::name::Shown;
use crate::report::Report;
use crate::trouble::Tried;

const MOVES: Opt = Opt::flag("--moves", "show the moves that lost, and why");

pub const DRAW: Command = Command {
    name: "draw",
    operands: "FILE",
    takes: 1..=1,
    options: &[MOVES, OUT],
    does: "draw the tree as SVG",
    more: "
Removed nodes are struck through. With --moves a coloured line is the place that a
move gave its node, a dashed arrow goes from a node to the parent that a move would
have given it and did not, and below the tree stands why. Each seat has its colour.
With --out and --plain nothing is printed.
",
    example: "seat new news.outline
seat add --as 1 news.outline 0
seat draw --out news.svg news.outline",
    run: draw,
};

fn draw(ask: &Ask) -> Tried<Report> {
    let log = input::log(ask.operand(0))?;
    let svg = drawing(&log, ask.has(MOVES));
    let Some(out) = ask.value(OUT) else {
        return Ok(Report::text(svg));
    };
    let nodes = log.tree().nodes().count() - 1;
    let streamed = put_out(ask, out, svg.into_bytes())?;
    let text = match ask.is_plain() {
        true => String::new(),
        false => format!("{}: the root and {}\n", Shown(out), many(nodes, "node")),
    };
    Ok(Report::changed(streamed, text))
}
