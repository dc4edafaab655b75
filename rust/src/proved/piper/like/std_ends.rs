//! Readers and writers of std, with what their own traits don't state: with which errors a call
//! failed, that a write took no byte, and what was flushed. Every reader and writer of std has
//! these. A generic function can't look into them, so one whose clause says that a call failed with
//! an error has made that call, and has the error from it.
/* ghost use Rattle.std.specs.Prelude.{◌≡◌, ◌<◌, length, Ok, OnOk, IfErr, ⊤}; */
/* ghost use Rattle.std.specs.Io.{ReadsAtMost, WritesAtMost}; */
/* ghost use Rattle.std.specs.Io.KnownBytes.{Keeps, ReadConsumes, WriteAppends}; */
/* ghost use Rattle.piper.specs.StdEnds.{WasFlushed, WasRead, WasWritten}; */
/* ghost use Rattle.piper_protocol.specs.Reported.{HasFailed, IsOfStd}; */

use crate::proved::piper_protocol::reported::reported;
use crate::shim::std::io;
use crate::shim::std::io::{Read, Write};

/// Any reader of std.
pub trait StdReader: Read {
    /* ghost use Rattle.std.specs.Prelude.{ℕ, Result}; */
    /* ghost use Rattle.std.specs.declared.io.Error.{Error}; */

    // a read on the one state returned this, and left the other
    /* ghost reads: { Self → Result ℕ Error → Self → Type 0 }; */

    // a read on the one state failed with this error, and left the other
    /* ghost fails: { Self → Error → Self → Type 0 }; */

    /// Reads once, as `Read::read` of std does.
    fn read_once(&mut self, dest: &mut [u8]) -> io::Result<usize>
        /* ensures bound { ReadsAtMost result dest.new }
        ensures bytes { ReadConsumes (Self.remaining self.old) (Self.remaining self.new)
            result dest.new }
        ensures read { reads self.old result self.new }
        ensures error { IfErr result (λ e. fails self.old e self.new) }
        ensures reported { IsOfStd result } */;
}

/// Any writer of std.
pub trait StdWriter: Write {
    /* ghost use Rattle.std.specs.Prelude.{ℕ, Result}; */
    /* ghost use Rattle.std.specs.declared.io.Error.{Error}; */

    // a write on the one state returned this, and left the other
    /* ghost writes: { Self → Result ℕ Error → Self → Type 0 }; */

    // a flush on the one state returned this, and left the other
    /* ghost flushes: { Self → Result Unit Error → Self → Type 0 }; */

    // a write of some bytes took none, and left it so
    /* ghost full: { Self → Type 0 }; */

    // a flush succeeded, and left it so
    /* ghost flushed: { Self → Type 0 }; */

    // a write or a flush on the one state failed with this error, and left the other
    /* ghost fails: { Self → Error → Self → Type 0 }; */

    /// Writes once, as `Write::write` of std does.
    fn write_once(&mut self, source: &[u8]) -> io::Result<usize>
        /* ensures bound { WritesAtMost result source.now }
        ensures bytes { WriteAppends (Self.contents self.old) (Self.contents self.new)
            result source.now }
        ensures written { writes self.old result self.new }
        ensures full { result ≡ Ok 0 → 0 < length source.now → full self.new }
        ensures error { IfErr result (λ e. fails self.old e self.new) }
        ensures reported { IsOfStd result } */;

    /// Sends what was written on its way, as `Write::flush` of std does.
    fn flush_once(&mut self) -> io::Result<()>
        /* ensures bytes { Keeps (Self.contents self.old) (Self.contents self.new) }
        ensures flushed { flushes self.old result self.new }
        ensures done { OnOk result (flushed self.new) }
        ensures error { IfErr result (λ e. fails self.old e self.new) }
        ensures reported { IsOfStd result } */;
}

// Reads once, and hands on what std returned.
#[inline(always)]
fn std_read<R: Read>(reader: &mut R, dest: &mut [u8]) -> io::Result<usize>
    /* ensures bound { ReadsAtMost result dest.new }
    ensures bytes { ReadConsumes (R.remaining reader.old) (R.remaining reader.new)
        result dest.new }
    ensures read { WasRead reader.old result reader.new } */
{
    reader.read(dest)
}

// Writes once, and hands on what std returned.
#[inline(always)]
fn std_write<W: Write>(writer: &mut W, source: &[u8]) -> io::Result<usize>
    /* ensures bound { WritesAtMost result source.now }
    ensures bytes { WriteAppends (W.contents writer.old) (W.contents writer.new)
        result source.now }
    ensures written { WasWritten writer.old result writer.new } */
{
    writer.write(source)
}

// Flushes, and hands on what std returned.
#[inline(always)]
fn std_flush<W: Write>(writer: &mut W) -> io::Result<()>
    /* ensures bytes { Keeps (W.contents writer.old) (W.contents writer.new) }
    ensures flushed { WasFlushed writer.old result writer.new } */
{
    writer.flush()
}

impl<R: Read> StdReader for R {
    /* ghost reads = { WasRead }; */

    /* ghost fails = { λ _ e _. HasFailed e }; */

    #[inline(always)]
    fn read_once(&mut self, dest: &mut [u8]) -> io::Result<usize> {
        reported(std_read(self, dest))
    }
}

impl<W: Write> StdWriter for W {
    /* ghost writes = { WasWritten }; */

    /* ghost flushes = { WasFlushed }; */

    /* ghost full = { λ _. ⊤ }; */

    /* ghost flushed = { λ _. ⊤ }; */

    /* ghost fails = { λ _ e _. HasFailed e }; */

    #[inline(always)]
    fn write_once(&mut self, source: &[u8]) -> io::Result<usize> {
        reported(std_write(self, source))
    }

    #[inline(always)]
    fn flush_once(&mut self) -> io::Result<()> {
        reported(std_flush(self))
    }
}
