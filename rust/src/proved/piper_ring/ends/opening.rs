//! A ring is opened.
/* ghost use Rattle.std.specs.Prelude.{◌≡◌, ◌*◌, ◌<◌, ◌^◌, true, false, [], ◌∷◌, IfErr, IfOk}; */
/* ghost use Rattle.piper_protocol.specs.Reported.{HasFailed}; */
/* ghost use Rattle.piper_cells.specs.Space.{Fits}; */
/* ghost use Rattle.piper_ring.specs.Block.{size_of_block, space_of, space_words}; */
/* ghost use Rattle.piper_ring.specs.contracts.ends.cells.WakerCells.{the_row as cells_row}; */
/* ghost use Rattle.piper_ring.specs.Log.{IsNew}; */
/* ghost use Rattle.piper_ring.specs.Opened.{FreshReadEnd, FreshSlots, FreshWriteEnd}; */

use crate::proved::piper_ring::ends::cells::{CellRights, OwnCell, WakerCells};
use crate::proved::piper_ring::ends::logged::Logged;
use crate::proved::piper_ring::ends::reader::{ReadEnd, ReadParts};
use crate::proved::piper_ring::ends::room::Room;
use crate::proved::piper_ring::ends::slots::reader::{ReadRegistrations, ReadSide};
use crate::proved::piper_ring::ends::slots::side::Side;
use crate::proved::piper_ring::ends::slots::writer::{ReadStored, WriteRegistrations, WriteSide};
use crate::proved::piper_ring::ends::slots::{Registrations, SlotParts};
use crate::proved::piper_ring::ends::writer::{WriteEnd, WriteParts};
use crate::proved::piper_ring::log::Log;
use crate::proved::piper_ring::ring::memory::{Memory, Parts, block_size};
use crate::proved::piper_ring::ring::seats::open;
use crate::proved::piper_cells::lent_space::{Lease, Lender};
use crate::proved::piper_protocol::indices::{ReadIndices, WriteIndices};
use crate::proved::piper_protocol::memory::OutOfMemory;
use crate::shim::std::alloc::{AllocError, Global};

/// The two ends of a new ring for `capacity` bytes, each with its log. If memory is refused, all that was got is
/// given back.
#[inline] pub fn open_ring(
    alloc: Global,
    capacity: usize,
) -> Result<(Logged<ReadEnd>, Logged<WriteEnd>), OutOfMemory>
    /* requires { (0 < capacity) × (2 * capacity < 2 ^ 64) }
    ensures pair { IfOk result (λ r. r.1.end.ring ≡ r.0.end.ring) }
    ensures reader { IfOk result (λ r. FreshReadEnd capacity r.0.end) }
    ensures writer { IfOk result (λ r. FreshWriteEnd capacity r.1.end) }
    ensures refused { IfErr result HasFailed } */
{
    let (parts, space) = claim(&alloc, capacity)?.part(capacity);
    let (_, lender, first, second) = space.lend();
    let (_, rights) = WakerCells::<()>::empty();
    let (reader, writer, _, _, read_log, write_log) = open_ends(
        alloc, capacity, parts, lender, first, second, rights,
    );
    let reader = Logged {
        end: reader,
        log: read_log,
    };
    let writer = Logged {
        end: writer,
        log: write_log,
    };
    Ok((reader, writer))
}

/// The two sides of a new ring for `capacity` bytes, in whose slots nobody waits yet. If memory
/// is refused, all that was got is given back.
///
/// The cells of the wakers lie between the words of the ring, so they take 96 bytes.
#[inline] pub fn open_with_slots<T>(
    alloc: Global,
    capacity: usize,
) -> Result<(ReadSide<T>, WriteSide<T>), OutOfMemory>
    /* requires capacity { (0 < capacity) × (2 * capacity < 2 ^ 64) }
    requires fits { Fits space_words (cells_row T.row) }
    ensures pair { IfOk result (λ (r, w). (w.end.ring ≡ r.end.ring) × (w.cells ≡ r.cells)) }
    ensures reader { IfOk result (λ (r, _). FreshReadEnd capacity r.end
        × FreshSlots r.end.ring.names r.slots) }
    ensures writer { IfOk result (λ (_, w). FreshWriteEnd capacity w.end
        × FreshSlots w.end.ring.names w.slots) }
    ensures logs { IfOk result (λ (r, w). (r.log.lines ≡ []) × (w.log.lines ≡ [])) }
    ensures refused { IfErr result HasFailed } */
{
    let (parts, space) = claim(&alloc, capacity)?.part(capacity);
    let (space, lender, first, second) = space.lend();
    let (cells, rights) = WakerCells::empty();
    let (read_cells, first) = space.place(first, cells);
    let write_cells = read_cells.duplicate();
    let (reader, writer, read_slots, write_slots, read_log, write_log) = open_ends(
        alloc, capacity, parts, lender, first, second, rights,
    );
    let reader = Side {
        end: reader,
        slots: read_slots,
        cells: read_cells,
        log: read_log,
    };
    let writer = Side {
        end: writer,
        slots: write_slots,
        cells: write_cells,
        log: write_log,
    };
    Ok((reader, writer))
}

// The two ends of a new ring in this block, and what each has of its slots.
#[inline] fn open_ends(
    alloc: Global,
    capacity: usize,
    parts: Parts,
    lender: Lender,
    first: Lease,
    second: Lease,
    rights: CellRights,
) -> (
    ReadEnd,
    WriteEnd,
    ReadRegistrations,
    WriteRegistrations,
    Log,
    Log,
)
    /* requires capacity { (0 < capacity) × (2 * capacity < 2 ^ 64) × (parts.capacity ≡ capacity) }
    requires lender { (lender.start ≡ space_of parts.start) × (lender.words ≡ space_words) }
    requires leases { (first.life ≡ lender.life) × (first.first ≡ true)
        × (second.life ≡ lender.life) × (second.first ≡ false) }
    ensures pair { result.1.ring ≡ result.0.ring }
    ensures reader { FreshReadEnd capacity result.0 }
    ensures writer { FreshWriteEnd capacity result.1 }
    ensures read_slots { FreshSlots result.0.ring.names result.2 }
    ensures write_slots { FreshSlots result.0.ring.names result.3 }
    ensures logs { IsNew result.0.ring.names true result.4
        × IsNew result.0.ring.names false result.5 }
    ensures life { result.0.ring.names.life ≡ lender.life }
    ensures cells { result.0.ring.names.cells ≡ rights.first.name ∷ rights.second.name
        ∷ rights.third.name ∷ rights.fourth.name ∷ [] } */
{
    let CellRights {
        first: in_readers,
        second: in_writers,
        third,
        fourth,
    } = rights;
    let (
        read_seat,
        write_seat,
        mut blank,
        reader_waits,
        writer_wakes,
        writer_waits,
        reader_wakes,
        read_log,
        write_log,
    ) = open(parts, lender, in_readers, in_writers, &third, &fourth);
    let observed_by_reader = write_seat.mark();
    let observed_by_writer = read_seat.mark();
    let read_saw = observed_by_reader.duplicate();
    let heard = observed_by_reader.duplicate();
    let write_saw = read_seat.unseen();
    let read_slots = SlotParts {
        waits: reader_waits,
        is_waiting: false,
        heard: observed_by_reader.duplicate(),
        wakes: reader_wakes,
        own: OwnCell {
            index: 2,
            right: third,
        },
    };
    let write_slots = SlotParts {
        waits: writer_waits,
        is_waiting: false,
        heard: ReadStored {
            count: observed_by_writer.duplicate(),
            closed: read_seat.unseen(),
        },
        wakes: writer_wakes,
        own: OwnCell {
            index: 3,
            right: fourth,
        },
    };
    let reader = ReadParts {
        seat: read_seat,
        known: blank.none(0),
        observed: observed_by_reader,
        saw: read_saw,
        heard,
        lease: first,
        alloc,
        indices: ReadIndices::new(capacity),
    };
    let writer = WriteParts {
        seat: write_seat,
        room: Room::new(blank, capacity),
        observed: observed_by_writer,
        saw: write_saw,
        lease: second,
        alloc,
        indices: WriteIndices::new(capacity),
    };
    (
        ReadEnd { parts: reader },
        WriteEnd { parts: writer },
        Registrations { parts: read_slots },
        Registrations { parts: write_slots },
        read_log,
        write_log,
    )
}

/// No block of the heap has more bytes than `isize::MAX`.
const MOST_SIZE: usize = isize::MAX as usize;

/// The memory for a ring of `capacity` bytes. What no block can hold is refused as the heap refuses
/// what it doesn't have.
#[inline] fn claim(alloc: &Global, capacity: usize) -> Result<Memory, OutOfMemory>
    /* requires { (0 < capacity) × (2 * capacity < 2 ^ 64) }
    ensures block { IfOk result (λ block. block.size ≡ size_of_block capacity) }
    ensures refused { IfErr result HasFailed } */
{
    let size = block_size(capacity);
    if size > MOST_SIZE {
        return Err(AllocError.into());
    }
    Memory::claim(alloc, size)
}
