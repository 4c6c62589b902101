//! A log in a lent buffer: its layout, its soundness, and adding an op.

use outline_model::refusal;

pub const REPLICAS: usize = 8;
pub const HEADER: usize = 32;
pub const OP: usize = 14;
pub const MOST: usize = 255;
pub const LARGEST: usize = HEADER + OP * REPLICAS * MOST;

pub type Vector = [u8; REPLICAS];

pub const ADD: u8 = 1;
pub const REMOVE: u8 = 2;
pub const UP: u8 = 3;
pub const DOWN: u8 = 4;

/// The 14 bytes of an op.
#[derive(Clone, Copy)]
pub struct Op<'a>(pub &'a [u8; OP]);

impl<'a> Op<'a> {
    pub fn kind(self) -> u8 {
        self.0[0]
    }

    pub fn replica(self) -> u8 {
        self.0[1]
    }

    pub fn node(self) -> u16 {
        u16::from_be_bytes([self.0[2], self.0[3]])
    }

    pub fn parent(self) -> u16 {
        u16::from_be_bytes([self.0[4], self.0[5]])
    }

    pub fn vector(self) -> &'a Vector {
        self.0[6..].try_into().expect("eight counts")
    }

    /// Where its replica stands in a vector.
    pub fn index(self) -> usize {
        usize::from(self.replica()) - 1
    }

    pub fn sequence(self) -> usize {
        usize::from(self.vector()[self.index()]) + 1
    }

    /// The sum of its counts.
    pub fn weight(self) -> usize {
        self.vector().iter().copied().map(usize::from).sum()
    }

    /// Kind and parent, of an op whose replica is right.
    fn fits(self) -> bool {
        match self.kind() {
            ADD | UP | DOWN => true,
            REMOVE => self.parent() == 0,
            _ => false,
        }
    }

    /// Tests 2 and 3 of a delivered op.
    pub fn read(bytes: &'a [u8]) -> Result<Op<'a>, u8> {
        let op = Op(bytes.try_into().map_err(|_| refusal::LENGTH)?);
        let replica = usize::from(op.replica());
        if !(1..=REPLICAS).contains(&replica) || op.sequence() > MOST || !op.fits() {
            return Err(refusal::FORM);
        }
        Ok(op)
    }
}

/// Whether `a` is nowhere greater than `b`. Four counts at once: a count and
/// what its partner lacks to 255 come to more than 255 where it is greater.
pub fn at_most(a: &Vector, b: &Vector) -> bool {
    const BYTES: u64 = 0x00ff_00ff_00ff_00ff;
    const ABOVE: u64 = 0x0100_0100_0100_0100;
    let (a, b) = (u64::from_le_bytes(*a), !u64::from_le_bytes(*b));
    let even = (a & BYTES) + (b & BYTES);
    let odd = (a >> 8 & BYTES) + (b >> 8 & BYTES);
    (even | odd) & ABOVE == 0
}

/// Whether `after` is `before` with one op more of a replica counted. The sum
/// carries into no other count where that one is below 255.
fn is_step(before: &Vector, after: &Vector, index: usize) -> bool {
    let step = 1 << (8 * index);
    u64::from_le_bytes(*before).wrapping_add(step) == u64::from_le_bytes(*after)
}

fn ops_in(bodies: &[u8]) -> impl Iterator<Item = Op<'_>> {
    bodies
        .chunks_exact(OP)
        .map(|body| Op(body.try_into().expect("14 bytes")))
}

/// A buffer with a sound log, and its header.
#[derive(Clone, Copy)]
pub struct Log<'a> {
    bytes: &'a [u8],
    pub layout: Layout,
}

/// What the header says.
#[derive(Clone, Copy)]
pub struct Layout {
    pub counts: Vector,
    starts: [usize; REPLICAS],
    pub end: usize,
}

impl Layout {
    fn read(bytes: &[u8]) -> Option<Layout> {
        let header = bytes.get(..HEADER)?;
        let mut layout = Layout {
            counts: [0; REPLICAS],
            starts: [0; REPLICAS],
            end: HEADER,
        };
        for (i, entry) in header.chunks_exact(4).enumerate() {
            let count = u16::from_be_bytes([entry[0], entry[1]]);
            let start = usize::from(u16::from_be_bytes([entry[2], entry[3]]));
            if usize::from(count) > MOST || start != layout.end {
                return None;
            }
            layout.counts[i] = count as u8;
            layout.starts[i] = start;
            layout.end += OP * usize::from(count);
        }
        (layout.end <= bytes.len()).then_some(layout)
    }

    /// Writes the op behind those of its replica; there is room for it.
    pub fn insert(&self, buffer: &mut [u8], index: usize, op: &[u8; OP]) -> usize {
        self.insert_all(buffer, index, op)
    }

    /// The same with any number of ops of one replica, one behind the other. The
    /// later bodies are moved once.
    #[inline(always)]
    pub fn insert_all(&self, buffer: &mut [u8], index: usize, ops: &[u8]) -> usize {
        let place = self.starts[index] + OP * usize::from(self.counts[index]);
        buffer.copy_within(place..self.end, place + ops.len());
        buffer[place..place + ops.len()].copy_from_slice(ops);
        let count = u16::from(self.counts[index]) + (ops.len() / OP) as u16;
        buffer[4 * index..4 * index + 2].copy_from_slice(&count.to_be_bytes());
        for later in index + 1..REPLICAS {
            let start = (self.starts[later] + ops.len()) as u16;
            buffer[4 * later + 2..4 * later + 4].copy_from_slice(&start.to_be_bytes());
        }
        self.end + ops.len()
    }

    /// The layout after an op of a replica was put in.
    pub fn with_one_more(mut self, index: usize) -> Layout {
        self.counts[index] += 1;
        for start in &mut self.starts[index + 1..] {
            *start += OP;
        }
        self.end += OP;
        self
    }
}

impl<'a> Log<'a> {
    /// The log, if it is sound.
    pub fn open(bytes: &'a [u8]) -> Option<Log<'a>> {
        let layout = Layout::read(bytes)?;
        let log = Log { bytes, layout };
        log.is_sound().then_some(log)
    }

    /// A log that is known to be sound.
    pub fn known(bytes: &'a [u8], layout: Layout) -> Log<'a> {
        Log { bytes, layout }
    }

    /// Along a replica vectors rise, so a count that has not changed since the
    /// op before is closed as it was there.
    fn is_sound(&self) -> bool {
        (0..REPLICAS).all(|index| {
            let mut before = [0; REPLICAS];
            self.ops_of(index).zip(1..).all(|(op, sequence)| {
                let sound = self.op_sound(op, index, sequence, &before);
                before = *op.vector();
                sound
            })
        })
    }

    fn op_sound(&self, op: Op, index: usize, sequence: usize, before: &Vector) -> bool {
        usize::from(op.replica()) == index + 1
            && (sequence > 1 && is_step(before, op.vector(), index)
                || self.vector_sound(op.vector(), index, sequence, before))
            && op.fits()
            && self.knows_names(op)
    }

    /// The own count, and tests 5 and 6 by what has changed. The own count names
    /// the op before.
    fn vector_sound(
        &self,
        vector: &Vector,
        index: usize,
        sequence: usize,
        before: &Vector,
    ) -> bool {
        usize::from(vector[index]) == sequence - 1
            && at_most(vector, &self.layout.counts)
            && at_most(before, vector)
            && (0..REPLICAS)
                .all(|i| i == index || vector[i] == before[i] || self.is_closed_at(vector, i))
    }

    /// Op number `sequence`, from 1, of a replica.
    pub fn op(&self, index: usize, sequence: usize) -> Op<'a> {
        let at = self.layout.starts[index] + OP * (sequence - 1);
        Op(self.bytes[at..at + OP].try_into().expect("14 bytes"))
    }

    /// All ops in file order.
    pub fn ops(&self) -> impl Iterator<Item = Op<'a>> {
        ops_in(&self.bytes[HEADER..self.layout.end])
    }

    /// Those of a replica.
    fn ops_of(&self, index: usize) -> impl Iterator<Item = Op<'a>> {
        let start = self.layout.starts[index];
        let length = OP * usize::from(self.layout.counts[index]);
        ops_in(&self.bytes[start..start + length])
    }

    /// Tests 5, 6 and 7.
    pub fn test(&self, op: Op) -> Result<(), u8> {
        let vector = op.vector();
        if !at_most(vector, &self.layout.counts) {
            return Err(refusal::EARLY);
        }
        if !self.is_closed(vector) {
            return Err(refusal::NOT_CLOSED);
        }
        if !self.knows_names(op) {
            return Err(refusal::UNKNOWN);
        }
        Ok(())
    }

    fn knows_names(&self, op: Op) -> bool {
        let vector = op.vector();
        match op.kind() {
            ADD => {
                let own = u16::from_be_bytes([op.replica(), op.sequence() as u8]);
                op.node() == own && self.knows_parent(vector, op.parent())
            }
            REMOVE => self.knows(vector, op.node()),
            _ => {
                self.knows(vector, op.node())
                    && self.knows_parent(vector, op.parent())
                    && op.parent() != op.node()
            }
        }
    }

    fn is_closed(&self, vector: &Vector) -> bool {
        (0..REPLICAS).all(|index| self.is_closed_at(vector, index))
    }

    fn is_closed_at(&self, vector: &Vector, index: usize) -> bool {
        let count = usize::from(vector[index]);
        count == 0 || at_most(self.op(index, count).vector(), vector)
    }

    /// Whether an add within the vector made the node.
    pub fn knows(&self, vector: &Vector, node: u16) -> bool {
        let [replica, sequence] = node.to_be_bytes();
        let index = usize::from(replica).wrapping_sub(1);
        index < REPLICAS
            && sequence >= 1
            && sequence <= vector[index]
            && self.op(index, usize::from(sequence)).kind() == ADD
    }

    pub fn knows_parent(&self, vector: &Vector, node: u16) -> bool {
        node == 0 || self.knows(vector, node)
    }
}
