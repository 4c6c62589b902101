//! Why bytes are not a sound log. Whether they are is the library's answer; this finds
//! a reason for people.

use outline::plain::{HEADER, LARGEST, OP};
use outline::{Kind, Node, Op, Refusal};
use std::array;

/// What is wrong first, in the order of the file, with bytes that are not sound.
pub fn why_not(bytes: &[u8]) -> String {
    if bytes.len() < HEADER {
        let length = bytes.len();
        return format!("it has {length} bytes, and a header alone has {HEADER}");
    }
    let wrong = match Bodies::read(bytes) {
        Ok(bodies) => bodies.wrong(),
        Err(wrong) => Some(wrong),
    };
    wrong.unwrap_or_else(|| "the library finds more than this program".into())
}

/// The ops of each seat, 14 bytes each.
struct Bodies<'a>([&'a [u8]; 8]);

impl Bodies<'_> {
    /// Cuts a file by its header, if counts, starts and length are right.
    fn read(bytes: &[u8]) -> Result<Bodies<'_>, String> {
        let word = |at: usize| usize::from(u16::from_be_bytes([bytes[at], bytes[at + 1]]));
        let mut ends = [HEADER; 8];
        let mut start = HEADER;
        for (at, end) in ends.iter_mut().enumerate() {
            let (seat, count, said) = (at + 1, word(4 * at), word(4 * at + 2));
            if count > 255 {
                return Err(format!(
                    "it counts {count} ops of seat {seat}, and 255 are the most"
                ));
            }
            if said != start {
                return Err(format!(
                    "the ops of seat {seat} start at {start}, and it says {said}"
                ));
            }
            start += OP * count;
            *end = start;
        }
        if bytes.len() < start {
            return Err(format!(
                "it ends at {}, and its ops at {start}",
                bytes.len()
            ));
        }
        if bytes.len() > LARGEST {
            // No more was read of it.
            return Err(format!("it goes on past its end, {start}"));
        }
        if bytes.len() > start {
            return Err(format!(
                "it goes on past its end, {start}, to {}",
                bytes.len()
            ));
        }
        Ok(Bodies(array::from_fn(|at| {
            let begin = if at == 0 { HEADER } else { ends[at - 1] };
            &bytes[begin..ends[at]]
        })))
    }

    /// How many ops of the seat at a place are here.
    fn count(&self, at: usize) -> usize {
        self.0[at].len() / OP
    }

    /// The op of a seat and sequence.
    fn op(&self, at: usize, sequence: u8) -> Option<&[u8]> {
        let before = usize::from(sequence).checked_sub(1)?;
        self.0[at].chunks_exact(OP).nth(before)
    }

    fn wrong(&self) -> Option<String> {
        (0..8).find_map(|at| {
            let mut bodies = self.0[at].chunks_exact(OP).zip(1..);
            bodies.find_map(|(op, sequence)| {
                let wrong = self.wrong_op(op, at, sequence)?;
                Some(format!("op {}:{sequence} {wrong}", at + 1))
            })
        })
    }

    /// What is wrong with an op in the place of a seat and sequence, in the order of the
    /// tests 3, 5, 6 and 7.
    fn wrong_op(&self, op: &[u8], at: usize, sequence: usize) -> Option<String> {
        let counts = &op[6..];
        if (usize::from(op[1]), usize::from(counts[at])) != (at + 1, sequence - 1) {
            return Some("is not there: another one stands in its place".into());
        }
        let read = Op::from_bytes(op);
        if read == Err(Refusal::Malformed) {
            return Some("is out of form (number 3)".into());
        }
        let ahead = (0..8).find(|&of| usize::from(counts[of]) > self.count(of));
        if let Some(of) = ahead {
            let (seat, count, here) = (of + 1, counts[of], self.count(of));
            return Some(format!(
                "counts {count} of seat {seat}, of which {here} stand here (number 5)"
            ));
        }
        let open = (0..8).find(|&of| {
            self.op(of, counts[of])
                .is_some_and(|last| !within(&last[6..], counts))
        });
        if let Some(of) = open {
            let last = format!("{}:{}", of + 1, counts[of]);
            return Some(format!(
                "counts {last}, but not all that {last} counts (number 6)"
            ));
        }
        match read {
            Ok(op) => self.wrong_names(&op, counts),
            Err(_) => Some(format!("names {}, which cannot be (number 7)", no_node(op))),
        }
    }

    /// What is wrong with the nodes that an op names.
    fn wrong_names(&self, op: &Op, counts: &[u8]) -> Option<String> {
        let (node, parent) = (op.node(), op.parent());
        let own = Node::new(op.replica(), op.sequence());
        if op.kind() == Kind::Add && Some(node) != own {
            return Some(format!(
                "adds {node}, which is not its own number (number 7)"
            ));
        }
        if parent == Some(node) {
            return Some(format!("puts {node} under itself (number 7)"));
        }
        let named = [parent, (op.kind() != Kind::Add).then_some(node)];
        let mut named = named.into_iter().flatten().filter(|node| !node.is_root());
        let unknown = named.find(|&node| !self.is_known(node, counts))?;
        Some(format!(
            "names {unknown}, which its counts do not add (number 7)"
        ))
    }

    /// Whether a node is added by an op that is counted.
    fn is_known(&self, node: Node, counts: &[u8]) -> bool {
        let (Some(replica), Some(sequence)) = (node.replica(), node.sequence()) else {
            return false;
        };
        let at = usize::from(replica.number()) - 1;
        let added = self.op(at, sequence).map(|op| op[0]);
        sequence <= counts[at] && added == Some(Kind::Add.number())
    }
}

/// The number that is no node, or the root where a node has to be, of an op that names
/// such a one.
fn no_node(op: &[u8]) -> u16 {
    let [node, parent] = [2, 4].map(|at| u16::from_be_bytes([op[at], op[at + 1]]));
    match Node::from_number(node) {
        Some(node) if !node.is_root() => parent,
        _ => node,
    }
}

/// Whether no count is greater than that of the other.
fn within(one: &[u8], other: &[u8]) -> bool {
    one.iter().zip(other).all(|(one, other)| one <= other)
}
