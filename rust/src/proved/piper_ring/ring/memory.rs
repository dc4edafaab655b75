//! Where the words of a ring lie in its block, and memory of the heap that no ring uses: before one
//! is opened, and once both of its ends are gone.
/* ghost use Rattle.std.specs.Prelude.{◌≡◌, ℕ, ◌*◌, ◌<◌, ◌^◌, IfErr, IfOk}; */
/* ghost use Rattle.piper_protocol.specs.Reported.{HasFailed}; */
/* ghost use Rattle.piper_ring.specs.Block.{IsClaim, size_of_block, space_of, space_words, unused}; */
/* ghost use Rattle.piper_ring.specs.Parts.{framed, parted}; */
/* ghost use Rattle.piper_ring.specs.Shared.{slot_word}; */

use crate::proved::piper_cells::lent_space::Space;
use crate::proved::piper_protocol::memory::OutOfMemory;
use crate::shim::std::alloc::{Allocator, Global};
/* use std::marker::Model; */

// Where each word lies, counted in words from the first. Processors fetch cache lines of 64 bytes,
// and often two, a pair of 128. So the head and the tail, which are stored while bytes flow, are
// never in one pair. Between them are the word that the reader loads after it stored the head, and
// those that the writer loads before and after it stores the tail: each a line away from the word
// which the same side stores.

pub(crate) const LEFT_WORD: usize = 0;

pub(crate) const HEAD_WORD: usize = 1;

/// Where the space begins in which the cells of the wakers lie: twelve words, between the head and
/// the writer's slot.
pub(crate) const SPACE_WORD: usize = 2;

pub(crate) const WRITER_SLOT: usize = 14;

pub(crate) const CLOSED_WORD: usize = 17;

pub(crate) const READER_SLOT: usize = 18;

pub(crate) const TAIL_WORD: usize = 26;

/// Which word is a side's slot.
#[inline(always)]
pub(crate) fn slot_of(is_reader: bool) -> usize
    /* ensures { result ≡ slot_word is_reader } */
{
    if is_reader { READER_SLOT } else { WRITER_SLOT }
}

/// How many bytes the words of a ring take. Its bytes lie after them, in the same block. It is a
/// multiple of 32: then the bytes are aligned as blocks of the heap are, between which they are
/// copied, and no vector of a copy lies across two cache lines without need.
pub(crate) const WORDS_SIZE: usize = 224;

const WORD_SIZE: usize = 8;

/// How many bytes the block of a ring takes: its words, and its bytes up to a whole word.
#[inline] pub(crate) fn block_size(capacity: usize) -> usize
    /* requires { 2 * capacity < 2 ^ 64 }
    ensures { result ≡ size_of_block capacity } */
{
    WORDS_SIZE + (capacity + 7) / WORD_SIZE * WORD_SIZE
}

/// A block of the heap in which nothing lies, and the right to free it.
pub(crate) struct Memory {
    pub(crate) start: *mut u8,
    /* pub(crate) ghost size: { ℕ }, */
}

/* impl Model for Memory {
    ghost also_owns = { λ m. unused m.size m.start };
} */

impl Memory {
    /// A block of `size` bytes that begins at a multiple of a word.
    #[inline] pub(crate) fn claim(heap: &Global, size: usize) -> Result<Memory, OutOfMemory>
        /* requires { IsClaim size }
        ensures block { IfOk result (λ m. m.size ≡ size) }
        ensures refused { IfErr result HasFailed } */
    {
        match heap.allocate(size, WORD_SIZE) {
            Err(_) => Err(OutOfMemory),
            Ok(start) => Ok(Memory { start }),
        }
    }

    /// Hands the block back to the heap.
    #[inline] pub(crate) fn surrender(self, heap: &Global, size: usize)
        /* requires { IsClaim size × (self.size ≡ size) } */
    {
        let Memory { start } = self;
        // SAFETY: `also_owns` owns the block that `claim` got, and the condition gives its size.
        unsafe { heap.deallocate(start, size, WORD_SIZE) }
    }

    /// The block in parts: what becomes a ring, and the space between its words.
    #[inline] pub(crate) fn part(self, capacity: usize) -> (Parts, Space)
        /* requires { self.size ≡ size_of_block capacity }
        ensures parts { (result.0.start ≡ self.start) × (result.0.capacity ≡ capacity) }
        ensures space { (result.1.start ≡ space_of self.start) × (result.1.words ≡ space_words) } */
    {
        let _ = capacity;
        let Memory { start } = self;
        let start = start as *mut u64;
        // SAFETY: the condition says that the block is owned here and has room for 28 words.
        let space = unsafe { start.add(SPACE_WORD) };
        (Parts { start }, Space { start: space })
    }
}

/// A block's words and bytes, in which nothing lies, without the space between the words.
pub(crate) struct Parts {
    pub(crate) start: *mut u64,
    /* pub(crate) ghost capacity: { ℕ }, */
}

/* impl Model for Parts {
    ghost also_owns = { λ p. parted p.capacity p.start };
} */

/// A block in which nothing lies, without the space between its words.
pub(crate) struct Frame {
    pub(crate) start: *mut u64,
    /* pub(crate) ghost capacity: { ℕ }, */
}

/* impl Model for Frame {
    ghost also_owns = { λ f. framed f.capacity f.start };
} */

impl Frame {
    /// The block with its space.
    #[inline] pub(crate) fn join(self, space: Space) -> Memory
        /* requires { (space.start ≡ space_of self.start) × (space.words ≡ space_words) }
        ensures { (result.size ≡ size_of_block self.capacity) × (result.size < 2 ^ 63) } */
    {
        let Frame { start } = self;
        let Space { start: _ } = space;
        Memory {
            start: start as *mut u8,
        }
    }
}
