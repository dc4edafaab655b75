//! Indices of a ring of `cap` places, and what each side keeps of them. They lie in `0..2 * cap`, so
//! that a full ring differs from an empty one.
/* ghost use Rattle.std.specs.Prelude.{◌≡◌, ◌+◌, ◌-◌, ◌*◌, ◌%◌, ◌<◌, ◌≤◌, ◌↔◌, ◌==◌, IsTrue, true}; */
/* ghost use Rattle.piper_protocol.specs.Index.{IsCapacity, distance, offset_of, advanced, turned, lap_remainder}; */

/* use std::marker::Model; */

/// The least that is lent where the buffer was never written, if there is room for it.
const LEAST_LEND: usize = 4096;

/// How far the index `to` is past the index `from`.
#[inline] pub fn distance(cap: usize, from: usize, to: usize) -> usize
    /* requires capacity { IsCapacity cap }
    requires from { from < 2 * cap }
    requires to { to < 2 * cap }
    ensures value { result ≡ distance cap from to }
    ensures remainder { result ≡ (2 * cap + to - from) % (2 * cap) } */
{
    if from <= to {
        to - from
    } else {
        2 * cap - from + to
    }
}

/// The place in the buffer of the index `i`.
#[inline] pub fn offset(cap: usize, i: usize) -> usize
    /* requires { i < 2 * cap }
    ensures value { result ≡ offset_of cap i }
    ensures remainder { result ≡ i % cap }
    ensures below { result < cap } */
{
    if i < cap { i } else { i - cap }
}

/// The index `n` places further on, which may be past the end of the buffer.
#[inline] pub fn advance(cap: usize, i: usize, n: usize) -> usize
    /* requires capacity { IsCapacity cap }
    requires index { i < 2 * cap }
    requires within { n ≤ cap }
    ensures value { result ≡ advanced cap i n }
    ensures remainder { result ≡ (i + n) % (2 * cap) }
    ensures below { result < 2 * cap } */
{
    // The index less a turn, modulo 2^64: a sum that wraps is past the end of the turn. Compiled,
    // that takes two instructions less than a comparison with the places that are left.
    let less = i.wrapping_sub(2 * cap);
    let sum = less.wrapping_add(n);
    if sum < less { sum } else { i + n }
}

/// The index one turn of the buffer further on, which is also the one a turn before.
#[inline] pub fn turned(cap: usize, i: usize) -> usize
    /* requires capacity { IsCapacity cap }
    requires index { i < 2 * cap }
    ensures value { result ≡ turned cap i }
    ensures back { turned cap result ≡ i }
    ensures below { result < 2 * cap } */
{
    if i < cap { i + cap } else { i - cap }
}

/// Places that lie in one piece.
#[derive(Clone, Copy)]
pub struct Piece {
    /// The offset of the first one.
    pub from: usize,
    /// How many they are.
    pub len: usize,
}

/// Places that the writer is lent, in one piece, and what was so when it was.
#[derive(Clone, Copy)]
pub struct Loan {
    /// How many places the pipe has.
    pub capacity: usize,
    /// How many places at the buffer's beginning were set before.
    pub zeroed: usize,
    /// The offset of the first place.
    pub from: usize,
    /// How many places they are.
    pub len: usize,
}

/// What the reader keeps from call to call. All counts are of bytes.
#[derive(/* Drop */)]
pub struct ReadIndices {
    capacity: usize,
    head: usize,
    tail: usize,
}

/* impl Model for ReadIndices {
    ghost use Rattle.piper_protocol.specs.ReaderIndices.{ReaderIndices, AreReaderIndices};

    ghost Value = { ReaderIndices };

    ghost view = { λ r. record { capacity = r.capacity; head = r.head; tail = r.tail } };

    ghost invariant = { λ r. AreReaderIndices (record {
      capacity = r.capacity;
      head = r.head;
      tail = r.tail;
    }) };
} */

impl ReadIndices {
    /* ghost use Rattle.piper_protocol.specs.ReaderIndices.{AreReaderIndices, known_in, peekable_in, tail_seen, head_passed, fresh_reader}; */

    /// The reader of an empty pipe.
    #[inline] pub fn new(capacity: usize) -> Self
        /* requires { IsCapacity capacity }
        ensures fresh { result ≡ fresh_reader capacity }
        ensures sound { AreReaderIndices result } */
    {
        ReadIndices {
            capacity,
            head: 0,
            tail: 0,
        }
    }

    /// How many places the pipe has.
    #[inline] pub fn capacity(&self) -> usize
        /* ensures value { result ≡ self.now.capacity }
        ensures sound { AreReaderIndices self.now } */
    {
        self.capacity
    }

    /// The reader's own index.
    #[inline] pub fn head(&self) -> usize
        /* ensures value { result ≡ self.now.head }
        ensures below { result < 2 * self.now.capacity } */
    {
        self.head
    }

    /// How many bytes the reader knows of.
    #[inline] pub fn known(&self) -> usize
        /* ensures value { result ≡ known_in self.now }
        ensures remainder { result ≡ lap_remainder self.now.capacity self.now.head self.now.tail }
        ensures within { result ≤ self.now.capacity } */
    {
        distance(self.capacity, self.head, self.tail)
    }

    /// Whether the reader knows of no byte.
    #[inline] pub fn knows_none(&self) -> bool
        /* ensures value { result ≡ (known_in self.now == 0) }
        ensures none { IsTrue result ↔ (known_in self.now ≡ 0) } */
    {
        self.head == self.tail
    }

    /// The known bytes that are contiguous.
    #[inline] pub fn piece(&self) -> Piece
        /* ensures from { result.from ≡ offset_of self.now.capacity self.now.head }
        ensures remainder { result.from ≡ self.now.head % self.now.capacity }
        ensures below { result.from < self.now.capacity }
        ensures len { result.len ≡ peekable_in self.now } */
    {
        let from = offset(self.capacity, self.head);
        let known = distance(self.capacity, self.head, self.tail);
        Piece {
            from,
            len: known.min(self.capacity - from),
        }
    }

    /// How many bytes are unread where the writer's index is here.
    #[inline] pub fn unread_to(&self, tail: usize) -> usize
        /* requires { tail < 2 * self.now.capacity }
        ensures value { result ≡ distance self.now.capacity self.now.head tail }
        ensures remainder { result ≡ lap_remainder self.now.capacity self.now.head tail } */
    {
        distance(self.capacity, self.head, tail)
    }

    /// The writer's index was seen to be here.
    #[inline] pub fn set_tail(&mut self, tail: usize)
        /* requires index { tail < 2 * self.old.capacity }
        requires within { known_in (tail_seen tail self.old) ≤ self.old.capacity }
        ensures after { self.new ≡ tail_seen tail self.old }
        ensures sound { AreReaderIndices self.new } */
    {
        self.tail = tail;
    }

    /// The first `n` known bytes are given up, which may go round the end of the buffer. Returns the
    /// reader's index then.
    #[inline] pub fn consume(&mut self, n: usize) -> usize
        /* requires { n ≤ known_in self.old }
        ensures index { result ≡ self.new.head }
        ensures after { self.new ≡ head_passed n self.old }
        ensures remainder { self.new.head ≡ (self.old.head + n) % (2 * self.old.capacity) }
        ensures known { known_in self.new ≡ known_in self.old - n }
        ensures sound { AreReaderIndices self.new } */
    {
        self.head = advance(self.capacity, self.head, n);
        self.head
    }
}

/// What the writer keeps from call to call. All counts are of places.
#[derive(/* Drop */)]
pub struct WriteIndices {
    capacity: usize,
    tail: usize,
    // Up to where the writer may write: one turn past the head as last seen, so that it knows of no
    // room exactly where this is its own index.
    limit: usize,
    zeroed: usize,
    lent: usize,
    is_shut: bool,
}

/* impl Model for WriteIndices {
    ghost use Rattle.std.specs.Prelude.{◌*◌, ◌<◌};
    ghost use Rattle.piper_protocol.specs.Index.{turned};
    ghost use Rattle.piper_protocol.specs.WriterIndices.{WriterIndices, AreWriterIndices};

    ghost Value = { WriterIndices };

    ghost view = { λ w. record {
      capacity = w.capacity;
      tail = w.tail;
      head = turned w.capacity w.limit;
      zeroed = w.zeroed;
      lent = w.lent;
      is_shut = w.is_shut;
    } };

    ghost invariant = { λ w. (w.limit < 2 * w.capacity) × AreWriterIndices (record {
      capacity = w.capacity;
      tail = w.tail;
      head = turned w.capacity w.limit;
      zeroed = w.zeroed;
      lent = w.lent;
      is_shut = w.is_shut;
    }) };
} */

impl WriteIndices {
    /* ghost use Rattle.piper_protocol.specs.WriterIndices.{AreWriterIndices, room_in, left_in, lendable_in, lent_from, head_seen, tail_passed, fresh_writer}; */

    /// The writer of an empty pipe.
    #[inline] pub fn new(capacity: usize) -> Self
        /* requires { IsCapacity capacity }
        ensures fresh { result ≡ fresh_writer capacity }
        ensures sound { AreWriterIndices result } */
    {
        WriteIndices {
            capacity,
            tail: 0,
            limit: capacity,
            zeroed: 0,
            lent: 0,
            is_shut: false,
        }
    }

    /// How many places the pipe has.
    #[inline] pub fn capacity(&self) -> usize
        /* ensures value { result ≡ self.now.capacity }
        ensures sound { AreWriterIndices self.now } */
    {
        self.capacity
    }

    /// The writer's own index.
    #[inline] pub fn tail(&self) -> usize
        /* ensures value { result ≡ self.now.tail }
        ensures below { result < 2 * self.now.capacity } */
    {
        self.tail
    }

    /// The place from which on the writer is lent.
    #[inline] pub fn front(&self) -> usize
        /* ensures value { result ≡ offset_of self.now.capacity self.now.tail }
        ensures remainder { result ≡ self.now.tail % self.now.capacity }
        ensures below { result < self.now.capacity } */
    {
        offset(self.capacity, self.tail)
    }

    /// How many free places the writer knows of.
    #[inline] pub fn room(&self) -> usize
        /* ensures value { result ≡ room_in self.now }
        ensures within { result ≤ self.now.capacity } */
    {
        distance(self.capacity, self.tail, self.limit)
    }

    /// Whether the writer knows of no room.
    #[inline] pub fn knows_none(&self) -> bool
        /* ensures value { result ≡ (room_in self.now == 0) }
        ensures none { IsTrue result ↔ (room_in self.now ≡ 0) } */
    {
        self.tail == self.limit
    }

    /// How many bytes are unread where the reader's index is here.
    #[inline] pub fn unread_from(&self, head: usize) -> usize
        /* requires { head < 2 * self.now.capacity }
        ensures value { result ≡ distance self.now.capacity head self.now.tail }
        ensures remainder { result ≡ lap_remainder self.now.capacity head self.now.tail } */
    {
        distance(self.capacity, head, self.tail)
    }

    /// How many places are lent.
    #[inline] pub fn lent(&self) -> usize
        /* ensures { result ≡ self.now.lent } */
    {
        self.lent
    }

    /// How many places at the buffer's beginning were set.
    #[inline] pub fn zeroed(&self) -> usize
        /* ensures { result ≡ self.now.zeroed } */
    {
        self.zeroed
    }

    /// Whether every place was set.
    #[inline] pub fn is_set(&self) -> bool
        /* ensures { IsTrue result ↔ (self.now.zeroed ≡ self.now.capacity) } */
    {
        self.zeroed == self.capacity
    }

    /// Lends up to `most` free places in one piece, in place of what was lent before.
    ///
    /// Places from `zeroed` of the loan on are to be set to zero before they are handed out.
    #[inline] pub fn lend(&mut self, most: usize) -> Loan
        /* ensures of { (result.capacity ≡ self.old.capacity) × (result.zeroed ≡ self.old.zeroed) }
        ensures from { result.from ≡ offset_of self.old.capacity self.old.tail }
        ensures remainder { result.from ≡ self.old.tail % self.old.capacity }
        ensures below { result.from < self.old.capacity }
        ensures len { result.len ≡ lendable_in most self.old }
        ensures after { self.new ≡ lent_from result.len self.old }
        ensures sound { AreWriterIndices self.new } */
    {
        let (capacity, zeroed) = (self.capacity, self.zeroed);
        let from = offset(capacity, self.tail);
        let room = distance(capacity, self.tail, self.limit);
        let mut len = most.min(room).min(capacity - from);
        if self.is_shut {
            len = 0;
        }
        // If all places are set the bound is past the room.
        if zeroed != capacity {
            len = len.min((2 * zeroed).saturating_add(LEAST_LEND));
            self.zeroed = zeroed.max(from + len);
        }
        self.lent = len;
        Loan {
            capacity,
            zeroed,
            from,
            len,
        }
    }

    /// Takes back what is lent.
    #[inline] pub fn unlend(&mut self)
        /* ensures after { self.new ≡ record self.old { lent = 0 } }
        ensures sound { AreWriterIndices self.new } */
    {
        self.lent = 0;
    }

    /// Takes back what is lent, and lends nothing from now on.
    #[inline] pub fn shut(&mut self)
        /* ensures after { self.new ≡ record self.old { lent = 0; is_shut = true } }
        ensures sound { AreWriterIndices self.new } */
    {
        self.lent = 0;
        self.is_shut = true;
    }

    /// The reader's index was seen to be here.
    #[inline] pub fn set_head(&mut self, head: usize)
        /* requires index { head < 2 * self.old.capacity }
        requires within { distance self.old.capacity head self.old.tail ≤ self.old.capacity }
        requires lent { self.old.lent ≤ room_in (head_seen head self.old) }
        ensures after { self.new ≡ head_seen head self.old }
        ensures sound { AreWriterIndices self.new } */
    {
        self.limit = turned(self.capacity, head);
    }

    /// The first `n` lent places are published. Returns the writer's index then.
    #[inline] pub fn publish(&mut self, n: usize) -> usize
        /* requires { n ≤ self.old.lent }
        ensures index { result ≡ self.new.tail }
        ensures after { self.new ≡ tail_passed n self.old }
        ensures remainder { self.new.tail ≡ (self.old.tail + n) % (2 * self.old.capacity) }
        ensures room { room_in self.new ≡ room_in self.old - n }
        ensures sound { AreWriterIndices self.new } */
    {
        self.tail = advance(self.capacity, self.tail, n);
        self.lent -= n;
        self.tail
    }
}
