//! Lent memory between guards, and what it holds before a call.

/// What lent numbers hold before a call, to be found there again after a refusal.
pub const PATTERN: u64 = 0x25A5_5A5A_C3C3_3C3C;

const GUARD: usize = 128;

/// Bytes or numbers between two stretches of memory that nobody may write to.
pub struct Guarded<T> {
    memory: Vec<T>,
    guard: T,
}

impl<T: Copy + PartialEq> Guarded<T> {
    pub fn new(content: &[T], guard: T) -> Self {
        let around = [guard; GUARD];
        Guarded { memory: [&around, content, &around].concat(), guard }
    }

    pub fn pointer(&mut self) -> *mut T {
        let end = self.memory.len() - GUARD;
        self.memory[GUARD..end].as_mut_ptr()
    }

    pub fn content(&self) -> &[T] {
        &self.memory[GUARD..self.memory.len() - GUARD]
    }

    /// The content with the guards around it.
    pub fn all(&self) -> &[T] {
        &self.memory
    }

    pub fn is_whole(&self) -> bool {
        let (front, back) = (&self.memory[..GUARD], &self.memory[self.memory.len() - GUARD..]);
        front.iter().chain(back).all(|item| *item == self.guard)
    }
}
