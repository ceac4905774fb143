//! A card whose memory is in a file.
use std::fs::File;
use std::io;
use std::os::unix::fs::{FileExt, MetadataExt};
use std::os::unix::io::AsRawFd;
use std::sync::{Mutex, MutexGuard, PoisonError};
use std::vec::Vec;

use crate::{Card, Error, MOST_WORDS};

const LAST_STREAM: i32 = 2;
const LOCK_EXCLUSIVE: i32 = 2;
const LOCK_AT_ONCE: i32 = 4;

extern "C" {
    fn flock(file: i32, operation: i32) -> i32;
}

/// The device and inode of each file that a card of this process has. A lock belongs to an open file, and the clones of
/// a [`File`] share it.
static USED: Mutex<Vec<(u64, u64)>> = Mutex::new(Vec::new());

fn used() -> MutexGuard<'static, Vec<(u64, u64)>> {
    USED.lock().unwrap_or_else(PoisonError::into_inner)
}

/// A file that one card has.
#[derive(Debug)]
pub(crate) struct Held {
    file: File,
    key: (u64, u64),
}

impl Held {
    /// Keeps all other cards, of this process and others, from a file.
    fn new(file: File) -> io::Result<Held> {
        let told = file.metadata()?;
        let (key, mut used) = ((told.dev(), told.ino()), used());
        if used.contains(&key) {
            return Err(io::ErrorKind::WouldBlock.into());
        }
        // SAFETY: the descriptor is open.
        if unsafe { flock(file.as_raw_fd(), LOCK_EXCLUSIVE | LOCK_AT_ONCE) } != 0 {
            return Err(io::Error::last_os_error());
        }
        used.push(key);
        Ok(Held { file, key })
    }
}

impl Drop for Held {
    fn drop(&mut self) {
        used().retain(|it| *it != self.key);
    }
}

impl From<Error> for io::Error {
    fn from(error: Error) -> io::Error {
        io::Error::new(io::ErrorKind::Other, error)
    }
}

impl Card {
    /// Makes the card whose image is in a file that is open for reading and writing, with power off. The file gets each
    /// device write before the call returns. The card owns the file, and holds a lock on it.
    ///
    /// Open the file with `O_DSYNC`, so that the disk has each write before the next one. Else a loss of power of the
    /// machine can leave no card in it.
    ///
    /// ```no_run
    /// let file = std::fs::OpenOptions::new().read(true).write(true).open("my.card")?;
    /// let mut card = soffitfennel::Card::attach(file)?;
    /// card.power_on()?;
    /// # Ok::<(), std::io::Error>(())
    /// ```
    pub fn attach(file: File) -> io::Result<Card> {
        if !file.metadata()?.is_file() {
            return Err(io::Error::new(io::ErrorKind::InvalidInput, "it is no regular file"));
        }
        // (a process without a standard stream gives its number to the next file; a clone is above them)
        let file = if file.as_raw_fd() <= LAST_STREAM { file.try_clone()? } else { file };
        let held = Held::new(file)?;
        let words = words_of(&held.file)?;
        // SAFETY: the card owns the file.
        let mut card = unsafe { Card::attach_raw(&words, held.file.as_raw_fd()) }?;
        card.file = Some(held);
        Ok(card)
    }
}

/// The words of the image in a file.
fn words_of(file: &File) -> io::Result<Vec<u32>> {
    let size = file.metadata()?.len();
    if size % 4 != 0 || size > 4 * MOST_WORDS as u64 {
        return Err(Error::Size.into());
    }
    let mut image = std::vec![0; size as usize];
    file.read_exact_at(&mut image, 0)?;
    let words = image.chunks_exact(4);
    Ok(words.map(|word| u32::from_be_bytes([word[0], word[1], word[2], word[3]])).collect())
}
