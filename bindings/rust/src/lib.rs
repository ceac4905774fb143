//! The smart card of Soffitfennel: a safe wrapper of its C library.
//!
//! ```
//! use soffitfennel::{Card, Error, ROOM};
//!
//! fn main() -> Result<(), Error> {
//!     let mut card = Card::factory()?;
//!     card.power_on()?;
//!     let mut answer = [0; ROOM];
//!     card.transmit(&[0x00, 0xA4, 0x00, 0x0C, 0x02, 0x2F, 0xE2], &mut answer)?;
//!     let iccid = card.transmit(&[0x00, 0xB0, 0x00, 0x00, 0x0A], &mut answer)?;
//!     assert_eq!(iccid, [0x98, 0x10, 0x32, 0x54, 0x76, 0x98, 0x10, 0x32, 0x54, 0x76, 0x90, 0x00]);
//!     Ok(())
//! }
//! ```
//!
//! Without the feature `std` the crate needs no standard library.
#![no_std]
#![deny(missing_docs)]

#[cfg(feature = "std")]
extern crate std;

use core::fmt;
use core::ptr;

/// The bytes of a buffer for an answer or a block.
pub const ROOM: usize = 258;

/// The answer to reset of every card.
pub const ATR: [u8; 7] = [0x3B, 0x80, 0x81, 0x31, 0xFE, 0x45, 0x8B];

/// The pages of the bench's factory card, and the fewest of a memory.
pub const PAGES: usize = 1_024;

/// The most pages of a memory.
pub const MOST_PAGES: usize = 4_096;

/// The words of a memory of [`PAGES`].
pub const WORDS: usize = 16 * PAGES;

/// The most words of a memory.
pub const MOST_WORDS: usize = 16 * MOST_PAGES;

/// What the library has behind a pointer.
#[repr(C)]
struct Behind {
    _private: [u8; 0],
}

type Pointer = *mut Behind;
type Exchange = unsafe extern "C" fn(*mut Pointer, *const u8, usize, *mut u8, usize, *mut usize) -> i32;

extern "C" {
    fn soffitfennel_factory(card: *mut Pointer, pages: usize) -> i32;
    fn soffitfennel_insert(card: *mut Pointer, words: *const u32, count: usize) -> i32;
    fn soffitfennel_attach(card: *mut Pointer, words: *const u32, count: usize, device: i32) -> i32;
    fn soffitfennel_power_on(card: *mut Pointer) -> i32;
    fn soffitfennel_power_off(card: *mut Pointer) -> i32;
    fn soffitfennel_command(
        card: *mut Pointer,
        command: *const u8,
        count: usize,
        answer: *mut u8,
        room: usize,
        size: *mut usize,
    ) -> i32;
    fn soffitfennel_block(
        card: *mut Pointer,
        block: *const u8,
        count: usize,
        reply: *mut u8,
        room: usize,
        size: *mut usize,
    ) -> i32;
    fn soffitfennel_cut(card: *mut Pointer, number: u32, mask: u16) -> i32;
    fn soffitfennel_lose(card: *mut Pointer, number: u32) -> i32;
    fn soffitfennel_garble(card: *mut Pointer, number: u32) -> i32;
    fn soffitfennel_clear_faults(card: *mut Pointer) -> i32;
    fn soffitfennel_state(card: *mut Pointer, state: *mut u32) -> i32;
    fn soffitfennel_free_space(card: *mut Pointer, blocks: *mut u16, entries: *mut u16) -> i32;
    fn soffitfennel_words(card: *mut Pointer, words: *mut u32, count: usize, size: *mut usize) -> i32;
    fn soffitfennel_free(card: *mut Pointer);
}

mod readers;
pub use readers::{Reader, Step};

/// Why a call has no result.
#[derive(Clone, Copy, Debug, PartialEq, Eq)]
#[non_exhaustive]
pub enum Error {
    /// No answer: power is off, or power-on fails.
    Mute,
    /// Power was lost in this call, and is off.
    Dark,
    /// The link was lost.
    Lost,
    /// A length or a number is out of its range. Nothing was done.
    Size,
    /// There is too little memory.
    Memory,
    /// No card is found in the words.
    NoCard,
    /// The device did not take a write. Make the card again from the device.
    Unstored,
    /// A reader resynchronised the link. The command may have run.
    Resynched,
    /// The answer that a reader received has a wrong length. A reset restores the link.
    BadAnswer,
    /// A reader has a command in progress, or none. Nothing was done.
    OutOfTurn,
    /// The library returned a number that this crate doesn't know.
    Unknown(i32),
}

impl fmt::Display for Error {
    fn fmt(&self, f: &mut fmt::Formatter<'_>) -> fmt::Result {
        match self {
            Error::Mute => f.write_str("the card gives no answer"),
            Error::Dark => f.write_str("power was lost"),
            Error::Lost => f.write_str("the link was lost"),
            Error::Size => f.write_str("a length or a number is out of its range"),
            Error::Memory => f.write_str("there is too little memory"),
            Error::NoCard => f.write_str("no card is found in the words"),
            Error::Unstored => f.write_str("the device did not take a write"),
            Error::Resynched => f.write_str("the link was resynchronised, and the command may have run"),
            Error::BadAnswer => f.write_str("the answer has a wrong length"),
            Error::OutOfTurn => f.write_str("a command is in progress, or none is"),
            Error::Unknown(outcome) => write!(f, "the library returned {outcome}, which is not known here"),
        }
    }
}

#[cfg(feature = "std")]
impl std::error::Error for Error {}

fn done(outcome: i32) -> Result<(), Error> {
    Err(match outcome {
        0 => return Ok(()),
        1 => Error::Mute,
        2 => Error::Dark,
        3 => Error::Lost,
        4 => Error::Size,
        5 => Error::Memory,
        6 => Error::NoCard,
        7 => Error::Unstored,
        10 => Error::Resynched,
        11 => Error::BadAnswer,
        12 => Error::OutOfTurn,
        _ => Error::Unknown(outcome),
    })
}

/// The free space of a card.
#[derive(Clone, Copy, Debug, PartialEq, Eq)]
pub struct FreeSpace {
    /// The unused blocks of the memory.
    pub blocks: u16,
    /// The unused entries of the file table.
    pub entries: u16,
}

/// The power of a card, its device, and the faults that are pending.
#[derive(Clone, Copy, Debug, PartialEq, Eq)]
#[non_exhaustive]
pub struct State {
    /// Power is on.
    pub has_power: bool,
    /// A device gets the card's writes.
    pub has_device: bool,
    /// A power cut is pending.
    pub has_cut: bool,
    /// A block that the line loses is pending.
    pub has_loss: bool,
    /// A block that the line garbles is pending.
    pub has_garbling: bool,
    /// The device did not take a write.
    pub is_unstored: bool,
}

/// A card, with its memory and its end of the link.
#[derive(Debug)]
pub struct Card {
    // SAFETY of all calls below: a pointer that the library gave, and that no other `Card` has. `&mut self` allows one
    // call at a time, and each slice is valid for its call.
    pointer: Pointer,
    // (dropped behind the card, which writes to it)
    #[cfg(all(feature = "std", unix))]
    file: Option<files::Held>,
}

// SAFETY: a card has no state outside of its memory and its file, so another thread may make the next call.
unsafe impl Send for Card {}

impl Card {
    /// A card without a file of its own.
    fn of(pointer: Pointer) -> Card {
        Card {
            pointer,
            #[cfg(all(feature = "std", unix))]
            file: None,
        }
    }

    /// Makes the factory card on a memory of [`PAGES`], with power off.
    ///
    /// ```
    /// let mut card = soffitfennel::Card::factory()?;
    /// card.power_on()?;
    /// # Ok::<(), soffitfennel::Error>(())
    /// ```
    pub fn factory() -> Result<Card, Error> {
        Card::factory_of(PAGES)
    }

    /// Makes the factory card on a memory of so many pages, [`PAGES`] to [`MOST_PAGES`], with power off.
    pub fn factory_of(pages: usize) -> Result<Card, Error> {
        let mut pointer = ptr::null_mut();
        done(unsafe { soffitfennel_factory(&mut pointer, pages) })?;
        Ok(Card::of(pointer))
    }

    /// Makes the card whose memory has these words, with power off. It has no device.
    pub fn insert(words: &[u32]) -> Result<Card, Error> {
        let mut pointer = ptr::null_mut();
        done(unsafe { soffitfennel_insert(&mut pointer, words.as_ptr(), words.len()) })?;
        Ok(Card::of(pointer))
    }

    /// Makes the card whose memory has these words, with power off. The device of this number has the words already,
    /// and `soffitfennel_store` gets each device write before the call returns.
    ///
    /// # Safety
    /// With the library's own `soffitfennel_store` the number is a descriptor that stays open, and belongs to a file
    /// that is not mapped, as long as the card lives. Another one keeps the duties that `soffitfennel.h` names.
    pub unsafe fn attach_raw(words: &[u32], device: i32) -> Result<Card, Error> {
        let mut pointer = ptr::null_mut();
        done(unsafe { soffitfennel_attach(&mut pointer, words.as_ptr(), words.len(), device) })?;
        Ok(Card::of(pointer))
    }

    /// Switches power on, after power off if it is on.
    pub fn power_on(&mut self) -> Result<(), Error> {
        done(unsafe { soffitfennel_power_on(&mut self.pointer) })
    }

    /// Switches power off.
    pub fn power_off(&mut self) -> Result<(), Error> {
        done(unsafe { soffitfennel_power_off(&mut self.pointer) })
    }

    /// Sends a command, and returns its answer with the two status bytes.
    pub fn transmit<'a>(&mut self, command: &[u8], answer: &'a mut [u8; ROOM]) -> Result<&'a [u8], Error> {
        self.exchange(soffitfennel_command, command, answer)
    }

    /// Sends a block of T=1 straight to the card's end, and returns the block that it sends back.
    pub fn block<'a>(&mut self, block: &[u8], reply: &'a mut [u8; ROOM]) -> Result<&'a [u8], Error> {
        self.exchange(soffitfennel_block, block, reply)
    }

    fn exchange<'a>(&mut self, by: Exchange, sent: &[u8], got: &'a mut [u8; ROOM]) -> Result<&'a [u8], Error> {
        let mut size = 0;
        done(unsafe { by(&mut self.pointer, sent.as_ptr(), sent.len(), got.as_mut_ptr(), ROOM, &mut size) })?;
        Ok(&got[..size])
    }

    /// Sets a power cut for a later device write. Bit i of the mask says whether word i of the write is new.
    pub fn cut(&mut self, number: u32, mask: u16) -> Result<(), Error> {
        done(unsafe { soffitfennel_cut(&mut self.pointer, number, mask) })
    }

    /// Sets the block that the line loses in a later command.
    pub fn lose(&mut self, number: u32) -> Result<(), Error> {
        done(unsafe { soffitfennel_lose(&mut self.pointer, number) })
    }

    /// Sets the block that the line garbles in a later command.
    pub fn garble(&mut self, number: u32) -> Result<(), Error> {
        done(unsafe { soffitfennel_garble(&mut self.pointer, number) })
    }

    /// Takes back each fault that is pending, and switches power off.
    pub fn clear_faults(&mut self) -> Result<(), Error> {
        done(unsafe { soffitfennel_clear_faults(&mut self.pointer) })
    }

    /// Returns the state of the card.
    pub fn state(&mut self) -> Result<State, Error> {
        let mut bits = 0;
        done(unsafe { soffitfennel_state(&mut self.pointer, &mut bits) })?;
        let has = |bit: u32| bits & bit != 0;
        Ok(State {
            has_power: has(1),
            has_device: has(2),
            has_cut: has(4),
            has_loss: has(8),
            has_garbling: has(16),
            is_unstored: has(32),
        })
    }

    /// Returns the free space.
    pub fn free_space(&mut self) -> Result<FreeSpace, Error> {
        let (mut blocks, mut entries) = (0, 0);
        done(unsafe { soffitfennel_free_space(&mut self.pointer, &mut blocks, &mut entries) })?;
        Ok(FreeSpace { blocks, entries })
    }

    /// Copies the memory's words into the slice, and returns them.
    pub fn words<'a>(&mut self, words: &'a mut [u32]) -> Result<&'a [u32], Error> {
        let mut size = 0;
        done(unsafe { soffitfennel_words(&mut self.pointer, words.as_mut_ptr(), words.len(), &mut size) })?;
        Ok(&words[..size])
    }
}

impl Drop for Card {
    fn drop(&mut self) {
        unsafe { soffitfennel_free(&mut self.pointer) }
    }
}

#[cfg(all(feature = "std", unix))]
mod files;

#[cfg(test)]
mod tests {
    use super::{done, Error};

    #[test]
    fn each_outcome_is_its_own() {
        let all = [Error::Mute, Error::Dark, Error::Lost, Error::Size, Error::Memory, Error::NoCard, Error::Unstored];
        assert_eq!(done(0), Ok(()));
        for (number, error) in (1..).zip(all) {
            assert_eq!(done(number), Err(error));
        }
        for (number, error) in (10..).zip([Error::Resynched, Error::BadAnswer, Error::OutOfTurn]) {
            assert_eq!(done(number), Err(error));
        }
        for number in [-1, 8, 9, 13, 77] {
            assert_eq!(done(number), Err(Error::Unknown(number)));
        }
    }
}
