//! A reader's end of T=1.
use core::ptr;

use crate::{done, Error, Pointer, ROOM};

const SEND: i32 = 9;

extern "C" {
    fn soffitfennel_reader_new(reader: *mut Pointer) -> i32;
    fn soffitfennel_reader_command(
        reader: *mut Pointer,
        command: *const u8,
        count: usize,
        block: *mut u8,
        room: usize,
        size: *mut usize,
    ) -> i32;
    fn soffitfennel_reader_receive(
        reader: *mut Pointer,
        received: *const u8,
        count: usize,
        out: *mut u8,
        room: usize,
        size: *mut usize,
    ) -> i32;
    fn soffitfennel_reader_reset(reader: *mut Pointer) -> i32;
    fn soffitfennel_reader_free(reader: *mut Pointer);
}

/// What a reader does after the card's block.
#[derive(Clone, Copy, Debug, PartialEq, Eq)]
pub enum Step<'a> {
    /// It sends this block.
    Send(&'a [u8]),
    /// The command ran, and this is its answer with the two status bytes.
    Done(&'a [u8]),
}

/// A reader's end of T=1: it makes blocks of a command, and an answer of the card's blocks.
///
/// ```
/// use soffitfennel::{Card, Error, Reader, Step, ROOM};
///
/// /// The card's block, or none if it doesn't come in time. Here the card is in this program.
/// fn exchange<'a>(card: &mut Card, block: &[u8], received: &'a mut [u8; ROOM]) -> &'a [u8] {
///     card.block(block, received).unwrap_or(&[])
/// }
///
/// fn main() -> Result<(), Error> {
///     let (mut card, mut reader) = (Card::factory()?, Reader::new()?);
///     card.power_on()?;
///     let (mut buffer, mut received) = ([0; ROOM], [0; ROOM]);
///     let size = reader.command(&[0x00, 0xA4, 0x00, 0x0C, 0x02, 0x2F, 0xE2], &mut buffer)?.len();
///     let block = exchange(&mut card, &buffer[..size], &mut received);
///     assert_eq!(reader.receive(block, &mut buffer)?, Step::Done(&[0x90, 0x00]));
///     Ok(())
/// }
/// ```
#[derive(Debug)]
pub struct Reader {
    // SAFETY of all calls below: as of a card's pointer.
    pointer: Pointer,
}

// SAFETY: a reader has no state outside of its memory, so another thread may make the next call.
unsafe impl Send for Reader {}

impl Reader {
    /// Makes a reader as after power-on.
    pub fn new() -> Result<Reader, Error> {
        let mut pointer = ptr::null_mut();
        done(unsafe { soffitfennel_reader_new(&mut pointer) })?;
        Ok(Reader { pointer })
    }

    /// Begins a command of 1 to 261 bytes, and returns its first block.
    pub fn command<'a>(&mut self, command: &[u8], block: &'a mut [u8; ROOM]) -> Result<&'a [u8], Error> {
        let (room, mut size) = (block.as_mut_ptr(), 0);
        let (from, count) = (command.as_ptr(), command.len());
        match unsafe { soffitfennel_reader_command(&mut self.pointer, from, count, room, ROOM, &mut size) } {
            SEND => Ok(&block[..size]),
            outcome => Err(done(outcome).err().unwrap_or(Error::Unknown(outcome))),
        }
    }

    /// Takes what the card sent; an empty slice says that nothing came in time.
    ///
    /// # Errors
    /// [`Error::Resynched`]: the command may have run. After [`Error::Lost`] and [`Error::BadAnswer`] each command is
    /// lost, until you reset the card and the reader.
    pub fn receive<'a>(&mut self, received: &[u8], out: &'a mut [u8; ROOM]) -> Result<Step<'a>, Error> {
        let (room, mut size) = (out.as_mut_ptr(), 0);
        let (from, count) = (received.as_ptr(), received.len());
        match unsafe { soffitfennel_reader_receive(&mut self.pointer, from, count, room, ROOM, &mut size) } {
            SEND => Ok(Step::Send(&out[..size])),
            outcome => done(outcome).map(|()| Step::Done(&out[..size])),
        }
    }

    /// Sets the reader back to its state after power-on, as a reset does with the card.
    pub fn reset(&mut self) -> Result<(), Error> {
        done(unsafe { soffitfennel_reader_reset(&mut self.pointer) })
    }
}

impl Drop for Reader {
    fn drop(&mut self) {
        unsafe { soffitfennel_reader_free(&mut self.pointer) }
    }
}
