//! A `rand_chacha` of our own: `ChaCha8Rng` is a lent list of words and its cursor (RULES 3.1).

use rand::{RngCore, SeedableRng};
use std::cell::{Cell, RefCell};
use std::rc::Rc;

/// The panic that says: a word was drawn and there was none. The harness catches it.
#[derive(Debug, Clone, Copy, PartialEq, Eq)]
pub struct MissingWord;

thread_local! {
    /// What the next generator made from a seed reads: the program makes one for itself in `CiPipelineCore::new`.
    static LENT: RefCell<Rc<Vec<u64>>> = RefCell::new(Rc::new(Vec::new()));
    /// Words drawn in this thread since the last `lend`.
    static DRAWN: Cell<u64> = Cell::new(0);
}

/// From now on a generator made from a seed reads these words, whatever the seed.
pub fn lend(words: &[u64]) {
    LENT.with(|l| *l.borrow_mut() = Rc::new(words.to_vec()));
    DRAWN.with(|d| d.set(0));
}

/// Words drawn since the last `lend`, by any generator of this thread.
pub fn drawn() -> u64 {
    DRAWN.with(|d| d.get())
}

#[derive(Debug, Clone)]
pub struct ChaCha8Rng {
    words: Rc<Vec<u64>>,
    cursor: u64,
}

impl ChaCha8Rng {
    /// The words and where to draw next. A cursor past the end leaves no words.
    pub fn of_words(words: &[u64], cursor: u64) -> Self {
        ChaCha8Rng {
            words: Rc::new(words.to_vec()),
            cursor,
        }
    }

    pub fn cursor(&self) -> u64 {
        self.cursor
    }
}

impl RngCore for ChaCha8Rng {
    fn next_u64(&mut self) -> u64 {
        let w = usize::try_from(self.cursor)
            .ok()
            .and_then(|c| self.words.get(c).copied());
        match w {
            Some(w) => {
                self.cursor += 1;
                DRAWN.with(|d| d.set(d.get() + 1));
                w
            }
            None => std::panic::panic_any(MissingWord),
        }
    }
}

impl SeedableRng for ChaCha8Rng {
    fn seed_from_u64(_seed: u64) -> Self {
        LENT.with(|l| ChaCha8Rng {
            words: l.borrow().clone(),
            cursor: 0,
        })
    }
}
