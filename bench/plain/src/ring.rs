//! Up to 64 words, oldest first. The two counters only grow, and wrap.

#[derive(Clone)]
pub struct Ring {
    words: [u32; 64],
    taken: u32,
    added: u32,
}

impl Ring {
    pub const fn new() -> Ring {
        Ring {
            words: [0; 64],
            taken: 0,
            added: 0,
        }
    }

    #[inline]
    pub fn len(&self) -> usize {
        self.added.wrapping_sub(self.taken) as usize
    }

    #[inline]
    pub fn is_empty(&self) -> bool {
        self.added == self.taken
    }

    #[inline]
    pub fn is_full(&self) -> bool {
        self.len() >= 64
    }

    #[inline]
    pub fn oldest(&self) -> Option<u32> {
        (!self.is_empty()).then_some(self.words[(self.taken % 64) as usize])
    }

    /// For a ring that is not full.
    #[inline]
    pub fn push(&mut self, word: u32) {
        self.words[(self.added % 64) as usize] = word;
        self.added = self.added.wrapping_add(1);
    }

    /// For a ring that is not empty.
    #[inline]
    pub fn drop_oldest(&mut self) {
        self.taken = self.taken.wrapping_add(1);
    }

    #[inline]
    pub fn pop(&mut self) -> Option<u32> {
        let word = self.oldest()?;
        self.drop_oldest();
        Some(word)
    }

    /// For a ring with room for all these words: at most two pieces are copied.
    pub fn push_all(&mut self, words: &[u32]) {
        let at = (self.added % 64) as usize;
        let first = words.len().min(64 - at);
        self.words[at..at + first].copy_from_slice(&words[..first]);
        self.words[..words.len() - first].copy_from_slice(&words[first..]);
        self.added = self.added.wrapping_add(words.len() as u32);
    }
}
