//! The log: reading a buffer, soundness, and the tests of an op against it.

use crate::op::{
    at_most, node_number, replica_index, Kind, Op, Vector, MAX_SEQUENCE, OP_LEN, REPLICAS,
};
use crate::refusal;
use std::collections::{BTreeMap, BTreeSet};

/// Bytes of the header (the document's table of contents).
pub const HEADER_LEN: usize = 32;
/// Bytes of a file in which every replica is full.
pub const MAX_FILE: usize = HEADER_LEN + OP_LEN * REPLICAS * MAX_SEQUENCE;

/// What is known of a node in a vector.
#[derive(Clone, Copy, PartialEq, Eq, Debug)]
pub enum Knowledge {
    /// Nothing: its add is not within the vector. The root has no add.
    Unknown,
    /// Its add is within the vector, and no remove of it is.
    Unmarked,
    /// Its add is within the vector, and so is a remove of it.
    Marked,
}

impl Knowledge {
    pub fn is_known(self) -> bool {
        self != Knowledge::Unknown
    }
}

/// All ops of a sound file (the document's collection).
#[derive(Clone, PartialEq, Eq, Debug, Default)]
pub struct Log {
    ops: [Vec<Op>; REPLICAS],
    /// The removes of each node by place of the replica and sequence. Soundness
    /// asks for every op, and is slow if each question goes through all ops.
    removes: BTreeMap<u16, BTreeSet<(usize, usize)>>,
}

impl Log {
    /// The log at the front of the buffer, if it is sound.
    pub fn open(buffer: &[u8]) -> Option<Log> {
        let log = Log::read(buffer)?;
        // In layers: an op may only be looked up once no vector counts more
        // than is held.
        let held = log.held();
        let complete = log.ops().all(|op| at_most(&op.vector, &held));
        (complete && log.ops().all(|op| log.test_against(op).is_ok())).then_some(log)
    }

    /// Header and form of every body; nothing across ops yet.
    fn read(buffer: &[u8]) -> Option<Log> {
        let mut log = Log::default();
        let mut start = HEADER_LEN;
        for (index, count) in read_header(buffer)?.into_iter().enumerate() {
            for sequence in 1..=count {
                let op = Op::read(buffer.get(start..start + OP_LEN)?).ok()?;
                if op.index() != index || op.sequence() != sequence {
                    return None;
                }
                log.push(op);
                start += OP_LEN;
            }
        }
        Some(log)
    }

    /// The whole file: header and bodies.
    pub fn bytes(&self) -> Vec<u8> {
        let mut file = Vec::with_capacity(self.end());
        let mut start = HEADER_LEN;
        for ops in &self.ops {
            file.extend((ops.len() as u16).to_be_bytes());
            file.extend((start as u16).to_be_bytes());
            start += OP_LEN * ops.len();
        }
        for op in self.ops() {
            file.extend(op.bytes());
        }
        file
    }

    /// Ops in file order.
    pub fn ops(&self) -> impl Iterator<Item = &Op> {
        self.ops.iter().flatten()
    }

    /// The file end.
    pub fn end(&self) -> usize {
        HEADER_LEN + OP_LEN * self.ops().count()
    }

    /// How many ops of each replica are held.
    pub fn held(&self) -> Vector {
        std::array::from_fn(|i| self.ops[i].len() as u8)
    }

    pub fn get(&self, index: usize, sequence: usize) -> Option<&Op> {
        self.ops.get(index)?.get(sequence.checked_sub(1)?)
    }

    /// Puts an op behind those of its replica; its tests are the caller's.
    pub fn push(&mut self, op: Op) {
        if op.kind == Kind::Remove {
            let removes = self.removes.entry(op.node).or_default();
            removes.insert((op.index(), op.sequence()));
        }
        self.ops[op.index()].push(op);
    }

    /// Tests 5, 6 and 7 of an op against this log.
    pub fn test_against(&self, op: &Op) -> Result<(), u8> {
        if !at_most(&op.vector, &self.held()) {
            return Err(refusal::EARLY);
        }
        if !self.is_closed(&op.vector) {
            return Err(refusal::NOT_CLOSED);
        }
        if !self.names_known_nodes(op) {
            return Err(refusal::UNKNOWN);
        }
        Ok(())
    }

    /// Only the last op counted of each replica is looked at.
    fn is_closed(&self, vector: &Vector) -> bool {
        self.last_counted(vector)
            .all(|op| at_most(&op.vector, vector))
    }

    /// The last op of each replica with a count above 0.
    pub fn last_counted<'a>(&'a self, vector: &'a Vector) -> impl Iterator<Item = &'a Op> {
        (0..REPLICAS).filter_map(|i| self.get(i, usize::from(vector[i])))
    }

    fn names_known_nodes(&self, op: &Op) -> bool {
        let known = |node| self.knowledge(&op.vector, node).is_known();
        let parent_known = op.parent == 0 || known(op.parent);
        match op.kind {
            Kind::Add => {
                let own = node_number(op.replica, op.sequence());
                usize::from(op.node) == own && parent_known
            }
            Kind::Remove => known(op.node),
            Kind::Up | Kind::Down => known(op.node) && parent_known && op.parent != op.node,
        }
    }

    /// What is known of a node in a vector; marked and unmarked nodes alike may
    /// be named by an op that is delivered or held.
    pub fn knowledge(&self, vector: &Vector, node: u16) -> Knowledge {
        let [replica, sequence] = node.to_be_bytes();
        let add = replica_index(replica)
            .filter(|&index| sequence <= vector[index])
            .and_then(|index| self.get(index, usize::from(sequence)))
            .filter(|op| op.kind == Kind::Add);
        if add.is_none() {
            return Knowledge::Unknown;
        }
        let mut removes = self.removes.get(&node).into_iter().flatten();
        if removes.any(|&(index, sequence)| sequence <= usize::from(vector[index])) {
            Knowledge::Marked
        } else {
            Knowledge::Unmarked
        }
    }
}

/// The counts, if the header is right and the file fits its buffer.
fn read_header(buffer: &[u8]) -> Option<[usize; REPLICAS]> {
    let header = buffer.get(..HEADER_LEN)?;
    let mut counts = [0; REPLICAS];
    let mut end = HEADER_LEN;
    for (count, entry) in counts.iter_mut().zip(header.chunks_exact(4)) {
        *count = usize::from(u16::from_be_bytes([entry[0], entry[1]]));
        let start = usize::from(u16::from_be_bytes([entry[2], entry[3]]));
        if *count > MAX_SEQUENCE || start != end {
            return None;
        }
        end += OP_LEN * *count;
    }
    (end <= buffer.len()).then_some(counts)
}
