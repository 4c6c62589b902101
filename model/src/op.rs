//! The op: its bytes, and what its bytes alone settle.

use crate::refusal;

/// Bytes of an op (the document's record).
pub const OP_LEN: usize = 14;
/// Number of replicas (the document's seats); they are called 1 to 8.
pub const REPLICAS: usize = 8;
/// Ops that one replica can issue.
pub const MAX_SEQUENCE: usize = 255;

/// How many ops of each replica were seen (the document's context).
pub type Vector = [u8; REPLICAS];

/// The order of the variants is the judging order at equal timestamps.
#[derive(Clone, Copy, PartialEq, Eq, PartialOrd, Ord, Debug)]
pub enum Kind {
    Add = 1,
    Remove = 2,
    /// Upward move.
    Up = 3,
    /// Downward move.
    Down = 4,
}

impl Kind {
    fn read(byte: u8) -> Option<Kind> {
        match byte {
            1 => Some(Kind::Add),
            2 => Some(Kind::Remove),
            3 => Some(Kind::Up),
            4 => Some(Kind::Down),
            _ => None,
        }
    }

    pub fn is_move(self) -> bool {
        matches!(self, Kind::Up | Kind::Down)
    }
}

/// One operation (the document's record).
#[derive(Clone, Copy, PartialEq, Eq, Debug)]
pub struct Op {
    pub kind: Kind,
    /// Who issued it, 1 to 8 (the document's seat).
    pub replica: u8,
    pub node: u16,
    /// The new parent; 0 in a remove.
    pub parent: u16,
    /// What the replica had when it issued this (the document's context).
    pub vector: Vector,
}

impl Op {
    /// Tests 2 and 3, in this order.
    pub fn read(bytes: &[u8]) -> Result<Op, u8> {
        let bytes: &[u8; OP_LEN] = bytes.try_into().map_err(|_| refusal::LENGTH)?;
        Op::read_form(bytes).ok_or(refusal::FORM)
    }

    fn read_form(bytes: &[u8; OP_LEN]) -> Option<Op> {
        let kind = Kind::read(bytes[0])?;
        // The replica comes before its own count: the count is found by it.
        let replica = bytes[1];
        replica_index(replica)?;
        let op = Op {
            kind,
            replica,
            node: u16::from_be_bytes([bytes[2], bytes[3]]),
            parent: u16::from_be_bytes([bytes[4], bytes[5]]),
            vector: std::array::from_fn(|i| bytes[6 + i]),
        };
        let remove_with_parent = kind == Kind::Remove && op.parent != 0;
        (op.sequence() <= MAX_SEQUENCE && !remove_with_parent).then_some(op)
    }

    pub fn bytes(&self) -> [u8; OP_LEN] {
        let mut bytes = [0; OP_LEN];
        bytes[0] = self.kind as u8;
        bytes[1] = self.replica;
        bytes[2..4].copy_from_slice(&self.node.to_be_bytes());
        bytes[4..6].copy_from_slice(&self.parent.to_be_bytes());
        bytes[6..].copy_from_slice(&self.vector);
        bytes
    }

    /// Where the replica stands in tables, 0 to 7.
    pub fn index(&self) -> usize {
        usize::from(self.replica) - 1
    }

    /// Not written in the op: it is the own count plus 1.
    pub fn sequence(&self) -> usize {
        usize::from(self.vector[self.index()]) + 1
    }
}

/// Where a replica stands in tables, if it is one of 1 to 8.
pub fn replica_index(replica: u8) -> Option<usize> {
    let index = usize::from(replica).checked_sub(1)?;
    (index < REPLICAS).then_some(index)
}

/// The number of the node that this op would add.
pub fn node_number(replica: u8, sequence: usize) -> usize {
    256 * usize::from(replica) + sequence
}

/// Whether `a` is nowhere greater than `b`.
pub fn at_most(a: &Vector, b: &Vector) -> bool {
    a.iter().zip(b).all(|(x, y)| x <= y)
}

/// The greater count of each replica.
pub fn join(a: &Vector, b: &Vector) -> Vector {
    std::array::from_fn(|i| a[i].max(b[i]))
}
