//! Lent memory with guards before and behind it.

/// How much stands around lent memory. With none, a memory checker sees every
/// read and write beside it.
#[derive(Clone, Copy)]
pub struct Guards {
    pub front: usize,
    pub back: usize,
}

#[derive(Clone, PartialEq, Eq, Debug)]
pub struct Lent<T> {
    memory: Vec<T>,
    front: usize,
    length: usize,
}

impl<T: Copy> Lent<T> {
    /// Lends a copy of this content; the guards get values by their place.
    pub fn new(content: &[T], guards: Guards, value: impl Fn(usize) -> T) -> Lent<T> {
        let whole = guards.front + content.len() + guards.back;
        let mut memory = Vec::with_capacity(whole);
        memory.extend((0..guards.front).map(&value));
        memory.extend_from_slice(content);
        memory.extend((whole - guards.back..whole).map(&value));
        Lent {
            memory,
            front: guards.front,
            length: content.len(),
        }
    }

    pub fn get(&self) -> &[T] {
        &self.memory[self.front..self.front + self.length]
    }

    pub fn get_mut(&mut self) -> &mut [T] {
        &mut self.memory[self.front..self.front + self.length]
    }
}
