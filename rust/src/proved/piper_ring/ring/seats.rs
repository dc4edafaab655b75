//! The words that the two ends share, and what each end knows of them. Each step on a word is one
//! sequentially consistent access. Only the reader stores the head, and only the writer the tail.
/* ghost use Rattle.std.specs.Prelude.{◌≡◌, ℕ, ◌+◌, ◌-◌, ◌<◌, ◌≤◌, ◌++◌, Bool, true, false, List, [], ◌∷◌, length}; */
/* ghost use denote.RawPtr.{Ptr}; */
/* ghost use Rattle.rtrb.specs.Fifo.{position_of}; */
/* ghost use Rattle.piper_ring.specs.Shared.{Names, names_code, reader_owns, reader_lends, writer_owns, writer_lends, flag}; */
/* ghost use Rattle.piper_ring.specs.Block.{space_of, space_words}; */
/* ghost use Rattle.piper_protocol.specs.OneList.{loaded_closed, loaded_head, loaded_tail, stored_closed, stored_head, stored_tail}; */
/* ghost use Rattle.piper_ring.specs.Log.{IsLogOf, IsNew, MayNote, did}; */
/* ghost use Rattle.piper_ring.specs.Loads.{FoundClosed, FoundConsumed, FoundGone, FoundPublished}; */
/* ghost use Rattle.piper_ring.specs.SlotValues.{IsUnused, LooksFirst}; */

use crate::proved::piper_ring::log::Log;
use crate::proved::piper_ring::ring::marks::{ClosedMark, ReadMark, WriteMark};
use crate::proved::piper_ring::ring::memory::{
    CLOSED_WORD, HEAD_WORD, LEFT_WORD, Parts, READER_SLOT, TAIL_WORD, WORDS_SIZE, WRITER_SLOT,
};
use crate::proved::piper_ring::ring::places::{Base, Blank, Places};
use crate::proved::piper_ring::ring::remains::Remains;
use crate::proved::piper_ring::ring::slots::{WaiterState, WakerState};
use crate::proved::piper_cells::lent_space::{Lease, Lender};
use crate::proved::piper_cells::token_cell::Token;
use crate::shim::std::marker::{Brand, /* Model, */ PhantomData, Send, Sync};
use crate::shim::std::sync::atomic::Ordering::SeqCst;
use crate::shim::std::sync::atomic::raw;

/// The reader's side of the words. `have` is all that it consumed, followed by all that it knows
/// of.
pub(crate) struct ReadSeat {
    pub(crate) words: *mut u64,
    /* pub(crate) ghost at: { Ptr }, */
    /* pub(crate) ghost names: { Names } by { names_code }, */
    /* pub(crate) ghost head: { ℕ }, */
    /* pub(crate) ghost seen: { ℕ }, */
    /* pub(crate) ghost have: { List ℕ }, */
    /* pub(crate) ghost leaving: { Bool }, */
}

/* impl Model for ReadSeat {
    ghost also_owns = { λ r. reader_owns r.words r.at r.names r.head r.seen r.have r.leaving };

    ghost also_shares = { λ r _ κ. reader_lends r.words r.at r.names r.head r.seen r.leaving κ };
} */

// SAFETY: what it owns of the ring any thread may use.
unsafe impl Send for ReadSeat {}

// SAFETY: by a `&` to it the words are only accessed atomically.
unsafe impl Sync for ReadSeat {}

/// The writer's side of the words. It may write up to the place `limit`.
pub(crate) struct WriteSeat {
    pub(crate) words: *mut u64,
    /* pub(crate) ghost at: { Ptr }, */
    /* pub(crate) ghost names: { Names } by { names_code }, */
    /* pub(crate) ghost sent: { List ℕ }, */
    /* pub(crate) ghost limit: { ℕ }, */
    /* pub(crate) ghost shut: { Bool }, */
}

/* impl Model for WriteSeat {
    ghost also_owns = { λ r. writer_owns r.words r.at r.names r.sent r.limit r.shut };

    ghost also_shares = { λ r _ κ. writer_lends r.words r.at r.names r.sent r.limit r.shut κ };
} */

// SAFETY: what it owns of the ring any thread may use.
unsafe impl Send for WriteSeat {}

// SAFETY: by a `&` to it the words are only accessed atomically.
unsafe impl Sync for WriteSeat {}

/// The two seats of an empty open ring and its places, all of them the writer's room and none of
/// them set, with what each side knows of the slots, and its log. Of the cells, which are in the space of that
/// lender, the first lies in the reader's slot, the second in the writer's; the third is to be the
/// reader's own, the fourth the writer's.
#[inline] pub(crate) fn open(
    parts: Parts,
    lender: Lender,
    first: Token,
    second: Token,
    third: &Token,
    fourth: &Token,
) -> (
    ReadSeat,
    WriteSeat,
    Blank,
    WaiterState,
    WakerState,
    WaiterState,
    WakerState,
    Log,
    Log,
)
    /* requires space { (lender.start ≡ space_of parts.start) × (lender.words ≡ space_words) }
    requires first { (first.there ≡ true) × (first.filled ≡ false) }
    requires second { (second.there ≡ true) × (second.filled ≡ false) }
    ensures ring { (result.0.words ≡ parts.start)
        × (result.0.names.capacity ≡ parts.capacity) × (result.0.names.life ≡ lender.life) }
    ensures cells { result.0.names.cells
        ≡ first.name ∷ second.name ∷ third.now.name ∷ fourth.now.name ∷ [] }
    ensures reader { (result.0.head ≡ 0) × (result.0.seen ≡ 0) × (result.0.have ≡ [])
        × (result.0.leaving ≡ false) }
    ensures pair { (result.1.words ≡ result.0.words) × (result.1.at ≡ result.0.at)
        × (result.1.names ≡ result.0.names) }
    ensures writer { (result.1.sent ≡ []) × (result.1.limit ≡ parts.capacity)
        × (result.1.shut ≡ false) }
    ensures room { (result.2.at ≡ result.0.at) × (result.2.capacity ≡ parts.capacity)
        × (result.2.first ≡ 0) × (result.2.count ≡ parts.capacity) }
    ensures reader_waits { IsUnused result.0.names true result.3 }
    ensures writer_wakes { LooksFirst result.0.names true result.4 }
    ensures writer_waits { IsUnused result.0.names false result.5 }
    ensures reader_wakes { LooksFirst result.0.names false result.6 }
    ensures logs { IsNew result.0.names true result.7 × IsNew result.0.names false result.8 } */
{
    let Parts { start } = parts;
    let Lender { start: _ } = lender;
    let Token { mark: _ } = first;
    let Token { mark: _ } = second;
    // SAFETY: `also_owns` of the parts owns the words, which are aligned to 8.
    unsafe {
        start.add(HEAD_WORD).write(0);
        start.add(TAIL_WORD).write(0);
        start.add(CLOSED_WORD).write(0);
        start.add(LEFT_WORD).write(0);
        // The first cell, with no waker in it, and the second.
        start.add(READER_SLOT).write(0);
        start.add(WRITER_SLOT).write(2);
    }
    let reader = ReadSeat { words: start };
    let writer = WriteSeat { words: start };
    let room = Blank { mark: PhantomData };
    let reader_waits = WaiterState { mark: PhantomData };
    let writer_wakes = WakerState { mark: PhantomData };
    let writer_waits = WaiterState { mark: PhantomData };
    let reader_wakes = WakerState { mark: PhantomData };
    let read_log = Log { mark: PhantomData };
    let write_log = Log { mark: PhantomData };
    (
        reader,
        writer,
        room,
        reader_waits,
        writer_wakes,
        writer_waits,
        reader_wakes,
        read_log,
        write_log,
    )
}

impl ReadSeat {
    /* ghost use Rattle.piper_ring.specs.Stretches.{BeginsAt, IsBlankFrom, ReadGains, AreOfOneRing}; */
    /* ghost use Rattle.piper_ring.specs.Streams.{Reaches}; */

    /// Where the ring's bytes begin.
    #[inline(always)]
    pub(crate) fn base(&self) -> Base
        /* ensures { result.ptr ≡ self.now.at } */
    {
        // SAFETY: the seat owns or shares the ring's words (`also_owns`, `also_shares`), and the
        // bytes lie after them in the same block.
        let ptr = unsafe { (self.words as *mut u8).add(WORDS_SIZE) };
        Base { ptr }
    }

    /// Evidence of what was consumed.
    #[inline] pub(crate) fn mark(&self) -> ReadMark
        /* ensures { (result.names ≡ self.now.names) × (result.count ≡ self.now.head) } */
    {
        ReadMark { mark: PhantomData }
    }

    /// Evidence of nothing: closed was not seen yet.
    #[inline] pub(crate) fn unseen(&self) -> ClosedMark
        /* ensures { (result.names ≡ self.now.names) × (result.seen ≡ false) } */
    {
        ClosedMark { mark: PhantomData }
    }

    /// Where the tail is: no less than the reader has seen or was told of, and right at the end
    /// if it was told of that. With it comes evidence of the bytes that were published.
    #[inline] pub(crate) fn load_tail(&self, observed: &WriteMark, log: &mut Log) -> (u64, WriteMark)
        /* requires ring { observed.now.names ≡ self.now.names }
        requires log { MayNote self.now.names true log.old }
        ensures ring { result.1.names ≡ self.now.names }
        ensures tail { result.0 ≡ position_of self.now.names.capacity (length result.1.bytes) }
        ensures seen { self.now.seen ≤ length result.1.bytes }
        ensures within { length result.1.bytes ≤ self.now.head + self.now.names.capacity }
        ensures observed { length observed.now.bytes ≤ length result.1.bytes }
        ensures end { observed.now.shut ≡ true → result.1.bytes ≡ observed.now.bytes }
        ensures found { FoundPublished self.now.names (length result.1.bytes) }
        ensures noted { log.new ≡ did (loaded_tail (length result.1.bytes)) log.old } */
    {
        // SAFETY: the seat owns or shares the ring's words (`also_owns`, `also_shares`), which live
        // until the last end is gone.
        let tail = unsafe { raw::load::<Brand>(self.words.add(TAIL_WORD), SeqCst) };
        (tail, WriteMark { mark: PhantomData })
    }

    /// The places of the bytes that were seen published come to the reader. It is no step of the
    /// program.
    #[inline] pub(crate) fn accept(&mut self, known: &mut Places, published: &WriteMark)
        /* requires { (known.old.at ≡ self.old.at) × (known.old.capacity ≡ self.old.names.capacity)
            × (known.old.first + length known.old.bytes ≡ self.old.seen)
            × (published.now.names ≡ self.old.names)
            × (self.old.seen ≤ length published.now.bytes) }
        ensures { ReadGains self.old self.new known.old known.new published.now.bytes } */
    {}

    /// 1 if the ring is closed, else 0. Once it was seen closed, or the reader learned from a mark
    /// that the writer closed it, the result is 1. While the reader is there only the writer closes
    /// the ring: so with a 1 comes evidence of all that was published.
    #[inline] pub(crate) fn load_closed(
        &self,
        saw: &mut WriteMark,
        observed: &WriteMark,
        log: &mut Log,
    ) -> u64
        /* requires ring { (saw.old.names ≡ self.now.names) × (observed.now.names ≡ self.now.names)
            × (self.now.leaving ≡ false) }
        requires log { MayNote self.now.names true log.old }
        ensures ring { saw.new.names ≡ saw.old.names }
        ensures answer { result ≡ flag saw.new.shut }
        ensures stays { Reaches (saw.old.bytes, saw.old.shut) (saw.new.bytes, saw.new.shut) }
        ensures observed { flag observed.now.shut ≤ result }
        ensures found { FoundClosed self.now.names saw.new.shut }
        ensures noted { log.new ≡ did (loaded_closed saw.new.shut) log.old } */
    {
        // SAFETY: the seat owns or shares the ring's words (`also_owns`, `also_shares`), which live
        // until the last end is gone.
        unsafe { raw::load::<Brand>(self.words.add(CLOSED_WORD), SeqCst) }
    }

    /// Gives the places of the oldest bytes back.
    #[inline] pub(crate) fn store_head(&mut self, log: &mut Log, back: Places, head: u64)
        /* requires back { BeginsAt self.old.at self.old.names.capacity self.old.head back
            × (self.old.head + length back.bytes ≤ self.old.seen)
            × (head ≡ position_of self.old.names.capacity (self.old.head + length back.bytes)) }
        requires log { IsLogOf self.old.names true log.old }
        ensures seat { self.new ≡ record self.old { head = self.old.head + length back.bytes } }
        ensures noted { log.new ≡ did (stored_head back.bytes) log.old } */
    {
        let Places { mark: _ } = back;
        // SAFETY: the seat owns or shares the ring's words (`also_owns`, `also_shares`), which live
        // until the last end is gone.
        unsafe { raw::store::<Brand>(self.words.add(HEAD_WORD), head, SeqCst) }
    }

    /// Closes the ring, as `store_shut` of the writer, since the reader is about to leave. With it
    /// comes evidence that the ring is closed.
    #[inline] pub(crate) fn store_closed(&mut self, log: &mut Log) -> ClosedMark
        /* requires { IsLogOf self.old.names true log.old }
        ensures leaving { self.new ≡ record self.old { leaving = true } }
        ensures closed { (result.names ≡ self.old.names) × (result.seen ≡ true) }
        ensures noted { log.new ≡ did stored_closed log.old } */
    {
        // SAFETY: the seat owns or shares the ring's words (`also_owns`, `also_shares`), which live
        // until the last end is gone.
        unsafe { raw::store::<Brand>(self.words.add(CLOSED_WORD), 1, SeqCst) };
        ClosedMark { mark: PhantomData }
    }

    /// The reader leaves, and gives up the places of the bytes that it knows of. The answer is 1 if
    /// the writer had left before.
    #[inline] pub(crate) fn leave(self, known: Blank, lease: Lease) -> (u64, Remains)
        /* requires { IsBlankFrom self.at self.names.capacity self.head self.seen known
            × (self.leaving ≡ true) × (lease.life ≡ self.names.life) × (lease.first ≡ true) }
        ensures last { result.0 ≡ flag result.1.last }
        ensures memory { (result.1.words ≡ self.words) × (result.1.at ≡ self.at) }
        ensures ring { result.1.names ≡ self.names }
        ensures found { FoundGone self.names result.0 } */
    {
        let ReadSeat { words } = self;
        let Blank { mark: _ } = known;
        let Lease { mark: _ } = lease;
        // SAFETY: the seat owns or shares the ring's words (`also_owns`, `also_shares`), which live
        // until the last end is gone.
        let found = unsafe { raw::swap::<Brand>(words.add(LEFT_WORD), 1, SeqCst) };
        (found, Remains { words })
    }

    /// Both ends held by one thread: the reader gets the places of all bytes that were published,
    /// and the writer those of all that were consumed. What the reader heard of the end is so, and
    /// if the writer saw the ring closed, it closed it itself.
    #[inline] pub(crate) fn meet(
        &mut self,
        other: &mut WriteSeat,
        heard: &WriteMark,
        other_saw: &ClosedMark,
    ) -> (Places, Places)
        /* requires { AreOfOneRing self.old other.old × (heard.now.names ≡ self.old.names)
            × (other_saw.now.names ≡ self.old.names) × (self.old.leaving ≡ false) }
        ensures reader { self.new ≡ record self.old {
          seen = length other.old.sent;
          have = other.old.sent;
        } }
        ensures writer { other.new ≡ record other.old {
          limit = self.old.head + self.old.names.capacity;
        } }
        ensures arrived { BeginsAt self.old.at self.old.names.capacity self.old.seen result.0 }
        ensures published { self.old.have ++ result.0.bytes ≡ other.old.sent }
        ensures freed { BeginsAt self.old.at self.old.names.capacity other.old.limit result.1 }
        ensures room { other.old.limit + length result.1.bytes
            ≡ self.old.head + self.old.names.capacity }
        ensures heard { Reaches (heard.now.bytes, heard.now.shut)
            (other.old.sent, other.old.shut) }
        ensures other_shut { flag other_saw.now.seen ≤ flag other.old.shut } */
    {
        (Places { mark: PhantomData }, Places { mark: PhantomData })
    }
}

impl WriteSeat {
    /* ghost use Rattle.piper_ring.specs.Stretches.{BeginsAt, IsBlankFrom, WriteGains}; */

    /// Where the ring's bytes begin.
    #[inline(always)]
    pub(crate) fn base(&self) -> Base
        /* ensures { result.ptr ≡ self.now.at } */
    {
        // SAFETY: as the reader's.
        let ptr = unsafe { (self.words as *mut u8).add(WORDS_SIZE) };
        Base { ptr }
    }

    /// Evidence of what was published.
    #[inline] pub(crate) fn mark(&self) -> WriteMark
        /* ensures { (result.names ≡ self.now.names) × (result.bytes ≡ self.now.sent)
            × (result.shut ≡ self.now.shut) } */
    {
        WriteMark { mark: PhantomData }
    }

    /// Where the head is: no less than the writer was told of, and no room that it knows of is
    /// taken away. With it comes evidence of how many bytes were consumed.
    #[inline] pub(crate) fn load_head(&self, observed: &ReadMark, log: &mut Log) -> (u64, ReadMark)
        /* requires ring { observed.now.names ≡ self.now.names }
        requires log { MayNote self.now.names false log.old }
        ensures ring { result.1.names ≡ self.now.names }
        ensures head { result.0 ≡ position_of self.now.names.capacity result.1.count }
        ensures sent { result.1.count ≤ length self.now.sent }
        ensures room { self.now.limit ≤ result.1.count + self.now.names.capacity }
        ensures observed { observed.now.count ≤ result.1.count }
        ensures found { FoundConsumed self.now.names result.1.count }
        ensures noted { log.new ≡ did (loaded_head result.1.count) log.old } */
    {
        // SAFETY: the seat owns or shares the ring's words (`also_owns`, `also_shares`), which live
        // until the last end is gone.
        let head = unsafe { raw::load::<Brand>(self.words.add(HEAD_WORD), SeqCst) };
        (head, ReadMark { mark: PhantomData })
    }

    /// The places that were seen given back come to the writer. It is no step of the program.
    #[inline] pub(crate) fn accept(&mut self, room: &mut Places, consumed: &ReadMark)
        /* requires { (room.old.at ≡ self.old.at) × (room.old.capacity ≡ self.old.names.capacity)
            × (room.old.first + length room.old.bytes ≡ self.old.limit)
            × (consumed.now.names ≡ self.old.names)
            × (self.old.limit ≤ consumed.now.count + self.old.names.capacity) }
        ensures { WriteGains self.old self.new room.old room.new
            (consumed.now.count + self.old.names.capacity) } */
    {}

    /// 1 if the ring is closed, else 0. Once it was seen closed, or the writer closed it, the
    /// answer is 1.
    #[inline] pub(crate) fn load_closed(&self, saw: &mut ClosedMark, log: &mut Log) -> u64
        /* requires ring { saw.old.names ≡ self.now.names }
        requires log { MayNote self.now.names false log.old }
        ensures ring { saw.new.names ≡ saw.old.names }
        ensures answer { result ≡ flag saw.new.seen }
        ensures stays { flag saw.old.seen ≤ result }
        ensures shut { flag self.now.shut ≤ result }
        ensures found { FoundClosed self.now.names saw.new.seen }
        ensures noted { log.new ≡ did (loaded_closed saw.new.seen) log.old } */
    {
        // SAFETY: the seat owns or shares the ring's words (`also_owns`, `also_shares`), which live
        // until the last end is gone.
        unsafe { raw::load::<Brand>(self.words.add(CLOSED_WORD), SeqCst) }
    }

    /// Publishes the bytes that are in the places handed over. Once the writer closed the ring
    /// there are none.
    #[inline] pub(crate) fn store_tail(&mut self, log: &mut Log, bytes: Places, tail: u64)
        /* requires bytes { BeginsAt self.old.at self.old.names.capacity (length self.old.sent) bytes
            × (length self.old.sent + length bytes.bytes ≤ self.old.limit)
            × (self.old.shut ≡ true → bytes.bytes ≡ [])
            × (tail ≡ position_of self.old.names.capacity
            (length self.old.sent + length bytes.bytes)) }
        requires log { IsLogOf self.old.names false log.old }
        ensures seat { self.new ≡ record self.old { sent = self.old.sent ++ bytes.bytes } }
        ensures noted { log.new ≡ did (stored_tail bytes.bytes) log.old } */
    {
        let Places { mark: _ } = bytes;
        // SAFETY: the seat owns or shares the ring's words (`also_owns`, `also_shares`), which live
        // until the last end is gone.
        unsafe { raw::store::<Brand>(self.words.add(TAIL_WORD), tail, SeqCst) }
    }

    /// Closes the ring for good, or to leave, as `store_closed` of the reader.
    #[inline] pub(crate) fn store_shut(&mut self, log: &mut Log)
        /* requires { IsLogOf self.old.names false log.old }
        ensures seat { self.new ≡ record self.old { shut = true } }
        ensures noted { log.new ≡ did stored_closed log.old } */
    {
        // SAFETY: the seat owns or shares the ring's words (`also_owns`, `also_shares`), which live
        // until the last end is gone.
        unsafe { raw::store::<Brand>(self.words.add(CLOSED_WORD), 1, SeqCst) }
    }

    /// The writer leaves, and gives up the places of its room. The answer is 1 if the reader had
    /// left before.
    #[inline] pub(crate) fn leave(self, room: Blank, lease: Lease) -> (u64, Remains)
        /* requires { IsBlankFrom self.at self.names.capacity (length self.sent) self.limit room
            × (self.shut ≡ true) × (lease.life ≡ self.names.life) × (lease.first ≡ false) }
        ensures last { result.0 ≡ flag result.1.last }
        ensures memory { (result.1.words ≡ self.words) × (result.1.at ≡ self.at) }
        ensures ring { result.1.names ≡ self.names }
        ensures found { FoundGone self.names result.0 } */
    {
        let WriteSeat { words } = self;
        let Blank { mark: _ } = room;
        let Lease { mark: _ } = lease;
        // SAFETY: the seat owns or shares the ring's words (`also_owns`, `also_shares`), which live
        // until the last end is gone.
        let found = unsafe { raw::swap::<Brand>(words.add(LEFT_WORD), 1, SeqCst) };
        (found, Remains { words })
    }
}
