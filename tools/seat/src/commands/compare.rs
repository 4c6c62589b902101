//! Whether files are alike, and what differs.

use super::Command;
use crate::ask::Ask;
use crate::input;
use crate::judged::{differing, Id};
use crate::name::Shown;
use crate::report::Report;
use crate::trouble::Tried;
use outline::{Log, Node, Tree};
use std::collections::BTreeSet;
use std::fmt::Write;

pub const COMPARE: Command = Command {
    name: "compare",
    operands: "FILE FILE...",
    takes: 2..=super::ANY,
    options: &[],
    does: "say whether files are alike, or what each lacks and which nodes differ",
    more: "
Files that hold the same ops are alike byte for byte. The exit status is 0 whether
they are alike or not. With --plain the first line is `alike` or `differ`, and then
come, with the files by their places 1, 2, .. in the command:
  lacks 2 1:3         file 2 has not op 1:3, which another has
  conflict 1:3        files have different ops of this seat and sequence
  node 258 257k 0k -  for each file the parent of node 258 with k or, removed, r; or
                      - where the node is not there
",
    example: "seat new ann.outline
seat new bob.outline
seat add --as 1 ann.outline 0
seat compare ann.outline bob.outline",
    run: compare,
};

fn compare(ask: &Ask) -> Tried<Report> {
    let names = ask.operands();
    let logs = names
        .iter()
        .map(|name| input::log(name))
        .collect::<Tried<Vec<_>>>()?;
    if logs.windows(2).all(|pair| pair[0] == pair[1]) {
        return Ok(Report::text("alike\n".into()));
    }
    let names: Vec<String> = names.iter().map(|name| Shown(name).to_string()).collect();
    let found = Found::new(&logs);
    let text = match ask.is_plain() {
        true => found.plain(),
        false => found.told(&names),
    };
    Ok(Report::text(format!("differ\n{text}")))
}

/// What differs.
struct Found {
    /// For each file what it lacks.
    lacks: Vec<Vec<Id>>,
    conflicts: BTreeSet<Id>,
    /// Nodes, and for each file where they stand.
    nodes: Vec<(Node, Vec<Stand>)>,
}

/// The parent of a node and whether it is removed; none where it is not there.
type Stand = Option<(Node, bool)>;

impl Found {
    fn new(logs: &[Log]) -> Found {
        let ids = logs.iter().flat_map(Log::ops).map(|op| Id::of(&op));
        let ids: BTreeSet<Id> = ids.collect();
        let lacks = |log: &Log| {
            let lacking = ids.iter().filter(|id| id.of_log(log).is_none());
            lacking.copied().collect()
        };
        let pairs = logs
            .iter()
            .flat_map(|one| logs.iter().map(move |other| (one, other)));
        let conflicts = pairs.flat_map(|(one, other)| differing(one, other));

        let trees: Vec<Tree> = logs.iter().map(Log::tree).collect();
        let nodes: BTreeSet<Node> = trees.iter().flat_map(Tree::nodes).collect();
        let nodes = nodes.into_iter().map(|node| {
            let stands = trees.iter().map(|tree| stand(tree, node));
            (node, stands.collect::<Vec<_>>())
        });
        let differ =
            |(_, stands): &(Node, Vec<Stand>)| stands.windows(2).any(|two| two[0] != two[1]);
        Found {
            lacks: logs.iter().map(lacks).collect(),
            conflicts: conflicts.collect(),
            nodes: nodes.filter(differ).collect(),
        }
    }

    fn plain(&self) -> String {
        let mut text = String::new();
        for (at, ids) in self.lacks.iter().enumerate() {
            for id in ids {
                let _ = writeln!(text, "lacks {} {id}", at + 1);
            }
        }
        for id in &self.conflicts {
            let _ = writeln!(text, "conflict {id}");
        }
        for (node, stands) in &self.nodes {
            let stands = stands.iter().map(|stand| match stand {
                Some((parent, false)) => format!(" {parent}k"),
                Some((parent, true)) => format!(" {parent}r"),
                None => " -".into(),
            });
            let _ = writeln!(text, "node {node}{}", stands.collect::<String>());
        }
        text
    }

    fn told(&self, names: &[String]) -> String {
        let mut text = String::new();
        for (name, ids) in names.iter().zip(&self.lacks) {
            if !ids.is_empty() {
                let _ = writeln!(text, "{name} lacks {}", runs(ids));
            }
        }
        if !self.conflicts.is_empty() {
            let ids: Vec<Id> = self.conflicts.iter().copied().collect();
            let _ = writeln!(text, "not the same op in all: {}", runs(&ids));
        }
        for (node, stands) in &self.nodes {
            let _ = writeln!(text, "{node}: {}", grouped(names, stands));
        }
        text
    }
}

/// Where a node stands, with the files in which it stands there.
fn grouped(names: &[String], stands: &[Stand]) -> String {
    let mut groups: Vec<(Stand, Vec<&str>)> = Vec::new();
    for (name, stand) in names.iter().zip(stands) {
        match groups.iter_mut().find(|(known, _)| known == stand) {
            Some((_, names)) => names.push(name),
            None => groups.push((*stand, vec![name])),
        }
    }
    let groups = groups.into_iter();
    let groups = groups.map(|(stand, names)| format!("{} in {}", words(stand), names.join(", ")));
    groups.collect::<Vec<_>>().join("; ")
}

fn stand(tree: &Tree, node: Node) -> Stand {
    let parent = tree.parent(node).unwrap_or(Node::ROOT);
    tree.contains(node)
        .then_some((parent, tree.is_removed(node)))
}

fn words(stand: Stand) -> String {
    match stand {
        Some((parent, false)) => format!("under {parent}"),
        Some((parent, true)) => format!("under {parent}, removed,"),
        None => "not".into(),
    }
}

/// Ops by seat, those that follow one another as one: `1:3 to 1:5, 2:1`.
fn runs(ids: &[Id]) -> String {
    let mut runs: Vec<(Id, Id)> = Vec::new();
    for &id in ids {
        match runs.last_mut() {
            Some((_, last)) if follows(*last, id) => *last = id,
            _ => runs.push((id, id)),
        }
    }
    let text = runs.iter().map(|(first, last)| match first == last {
        true => first.to_string(),
        false => format!("{first} to {last}"),
    });
    text.collect::<Vec<_>>().join(", ")
}

fn follows(one: Id, next: Id) -> bool {
    one.replica == next.replica && one.sequence.checked_add(1) == Some(next.sequence)
}
