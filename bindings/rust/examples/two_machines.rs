//! Two machines, each with a log of its own. One makes two headings and the
//! other gets them; then, apart, each moves a heading below the other's. They
//! meet, hand each other a bundle, and hold the same file and the same tree.
//! Then one heading is removed, and takes no new work. A third machine gets all
//! ops by post, the last first: those that come early wait. A fourth one, which
//! keeps a page for its screen, gets them one by one, and one of them late. At last
//! it moves two nodes under one heading by one call.

use outline::{Delivery, Holdback, Kind, Log, Node, Op, Outcome, Page, Refusal, Replica, View};

struct Machine {
    replica: Replica,
    log: Log,
}

impl Machine {
    fn new(replica: Replica) -> Machine {
        let log = Log::new();
        Machine { replica, log }
    }

    fn add(&mut self, parent: Node) -> Result<Node, Refusal> {
        let node = self.log.add(self.replica, parent)?.node();
        println!("machine {} adds node {node} under {parent}", self.replica);
        Ok(node)
    }

    fn put(&mut self, node: Node, parent: Node) {
        print!(
            "machine {} moves node {node} under {parent}: ",
            self.replica
        );
        match self.log.move_to(self.replica, node, parent) {
            Ok(op) if op.kind() == Kind::MoveUp => println!("upward"),
            Ok(_) => println!("downward"),
            Err(why) => println!("refused, {why}"),
        }
    }

    /// Moves nodes under one parent, up to 16 of them: all, or none. That is so at
    /// issue only; once moves of other machines come, each of these has an outcome
    /// of its own.
    fn put_all(&mut self, nodes: &[Node], parent: Node) {
        let (replica, count) = (self.replica, nodes.len());
        print!("machine {replica} moves {count} nodes under {parent}: ");
        match self.log.move_all_to(replica, nodes, parent) {
            Ok(moves) => println!("{} ops", moves.len()),
            Err(why) => println!("refused, {why}"),
        }
    }

    /// Gets what it lacks, as over a wire: it sends its counts, and a bundle of
    /// all ops beyond them comes back.
    fn get_from(&mut self, other: &Machine) -> Result<(), Refusal> {
        let counts = self.log.vector();
        let bundle = other.log.bundle_for(&counts);
        let new = self.log.open_bundle(&bundle)?;
        println!(
            "machine {} opens a bundle of machine {}, of {} bytes: {new} new",
            self.replica,
            other.replica,
            bundle.as_bytes().len()
        );
        Ok(())
    }

    /// Gets ops one by one, in whatever order: one that comes before what it
    /// counts waits in the holdback.
    fn get_by_post(&mut self, ops: impl Iterator<Item = Op>) -> Result<(), Refusal> {
        let mut holdback = Holdback::new();
        for op in ops {
            let said = match self.log.deliver_with_holdback(op, &mut holdback)? {
                Delivery::Waiting => "early, it waits".to_string(),
                _ => format!("{} ops are there", self.log.len()),
            };
            println!(
                "machine {} gets op {} of machine {}: {said}",
                self.replica,
                op.sequence(),
                op.replica()
            );
        }
        Ok(())
    }

    /// Gets ops one by one, and keeps its page: only an op that is judged before
    /// some that are there makes it judge these again.
    fn follow(&mut self, ops: impl Iterator<Item = Op>, page: &mut Page) -> Result<(), Refusal> {
        for op in ops {
            let (_, taken_back) = self.log.deliver_with_page(op, page)?;
            println!(
                "machine {} gets op {} of machine {}: {taken_back} taken back",
                self.replica,
                op.sequence(),
                op.replica()
            );
        }
        Ok(())
    }

    fn show(&self) {
        println!("machine {} has", self.replica);
        for line in self.log.lines(View::Keeping) {
            let removed = if line.removed { " (removed)" } else { "" };
            let indent = "  ".repeat(line.depth);
            println!("  {indent}{}{removed}", line.node);
        }
    }
}

fn said(outcome: Option<Outcome>) -> &'static str {
    match outcome {
        Some(Outcome::Applied) => "applied",
        Some(Outcome::PlacedAlready) => "lost to another move of the node",
        Some(Outcome::WouldCloseCircle) => "would have closed a circle",
        None => "not there",
    }
}

fn main() -> Result<(), Refusal> {
    let mut one = Machine::new(Replica::try_from(1)?);
    let mut two = Machine::new(Replica::try_from(2)?);

    let a = one.add(Node::ROOT)?;
    let b = one.add(Node::ROOT)?;
    two.get_from(&one)?;

    one.put(b, a);
    two.put(a, b);
    one.show();
    two.show();

    two.get_from(&one)?;
    one.get_from(&two)?;
    assert_eq!(one.log, two.log);
    println!("the files are the same: {} bytes", one.log.as_bytes().len());
    one.show();

    let tree = one.log.tree();
    for op in one.log.ops() {
        let said = said(tree.outcome(&op));
        println!("op {} of machine {}: {said}", op.sequence(), op.replica());
    }
    let path: Vec<String> = tree.path(a).map(|node| node.to_string()).collect();
    println!("path of {a}: {}", path.join(" "));
    one.put(b, a);

    one.log.remove(one.replica, b)?;
    println!("machine {} removes node {b}", one.replica);
    one.put(a, b);
    one.show();

    let mut three = Machine::new(Replica::try_from(3)?);
    let mut ops: Vec<Op> = one.log.ops().collect();
    ops.reverse();
    three.get_by_post(ops.into_iter())?;
    assert_eq!(one.log, three.log);
    println!(
        "the files are the same: {} bytes",
        three.log.as_bytes().len()
    );

    let (mut four, mut page) = (Machine::new(Replica::try_from(4)?), Page::new());
    four.follow(one.log.ops(), &mut page)?;
    let (op, taken_back) = four.log.add_with_page(four.replica, a, &mut page)?;
    println!(
        "machine {} adds node {} under {a}: {taken_back} taken back",
        four.replica,
        op.node()
    );
    for (replica, sequence) in page.order() {
        let said = said(page.outcome_of(replica, sequence));
        println!("op {sequence} of machine {replica}: {said}");
    }
    assert_eq!(page, four.log.page());

    let (c, d) = (op.node(), four.add(Node::ROOT)?);
    four.put_all(&[c, b], d);
    four.put_all(&[c, a], d);
    four.show();
    Ok(())
}
