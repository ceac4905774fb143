//! Bodies of files: chains of blocks, whose first word names the next block.
use crate::board::{Board, PowerLost, PAGE};
use crate::journal::Transaction;

/// The first page of a block, and the one behind the last.
pub const PAGES: std::ops::Range<u32> = 128..1_024;
/// How many blocks there are.
pub const BLOCKS: usize = 896;
/// Bytes of a block.
pub const BYTES: usize = 60;

/// A place in a body: the page of its block, how many bytes go before it, and its word in the block.
#[derive(Clone, Copy)]
pub struct Place {
    page: usize,
    at: usize,
    word: usize,
}

impl Place {
    /// The place at an offset of the body that begins with a page.
    pub fn of(board: &Board, first: u16, offset: usize) -> Result<Place, PowerLost> {
        Place { page: usize::from(first), at: 0, word: 0 }.walk(board, offset)
    }

    /// The place at another offset. From a block behind that offset the walk begins at the first block again.
    pub fn go_to(self, board: &Board, first: u16, offset: usize) -> Result<Place, PowerLost> {
        if offset / BYTES < self.at / BYTES {
            Place::of(board, first, offset)
        } else {
            self.walk(board, offset)
        }
    }

    /// The place at an offset in this block or behind it.
    fn walk(self, board: &Board, offset: usize) -> Result<Place, PowerLost> {
        let mut page = self.page;
        for _ in self.at / BYTES..offset / BYTES {
            page = board.read(PAGE * page)? as usize;
        }
        Ok(Place { page, at: offset, word: offset % BYTES / 4 })
    }

    /// The address of the word here.
    fn address(&self) -> usize {
        PAGE * self.page + 1 + self.word
    }

    /// Goes on by some bytes of this word; at the end of a block its link leads on.
    fn advance(&mut self, board: &Board, bytes: usize) -> Result<(), PowerLost> {
        self.at += bytes;
        if self.at % 4 == 0 {
            self.word += 1;
            if self.word == BYTES / 4 {
                self.page = board.read(PAGE * self.page)? as usize;
                self.word = 0;
            }
        }
        Ok(())
    }

    /// Adds bytes of the body to an answer, and goes on behind them.
    pub fn read(&mut self, board: &Board, count: usize, answer: &mut Vec<u8>) -> Result<(), PowerLost> {
        let end = self.at + count;
        while self.at < end {
            let word = board.read(self.address())?.to_be_bytes();
            let (from, left) = (self.at % 4, end - self.at);
            if from == 0 && left >= 4 {
                answer.extend_from_slice(&word);
                self.advance(board, 4)?;
            } else {
                let part = &word[from..4.min(from + left)];
                answer.extend_from_slice(part);
                self.advance(board, part.len())?;
            }
        }
        Ok(())
    }
}

/// Adds bytes of a body to an answer.
pub fn read_bytes(
    board: &Board,
    first: u16,
    offset: usize,
    count: usize,
    answer: &mut Vec<u8>,
) -> Result<(), PowerLost> {
    Place::of(board, first, offset)?.read(board, count, answer)
}

/// Sets bytes of a body, each touched word once.
pub fn set_bytes(transaction: &mut Transaction, first: u16, offset: usize, bytes: &[u8]) -> Result<(), PowerLost> {
    let mut place = Place::of(transaction.board(), first, offset)?;
    let mut rest = bytes;
    while !rest.is_empty() {
        let (address, from) = (place.address(), place.at % 4);
        let (some, others) = match rest.split_first_chunk() {
            Some((word, others)) if from == 0 => {
                transaction.set(address, u32::from_be_bytes(*word))?;
                (4, others)
            }
            _ => {
                let (part, others) = rest.split_at(rest.len().min(4 - from));
                let mut word = transaction.board().read(address)?.to_be_bytes();
                word[from..from + part.len()].copy_from_slice(part);
                transaction.set(address, u32::from_be_bytes(word))?;
                (part.len(), others)
            }
        };
        rest = others;
        place.advance(transaction.board(), some)?;
    }
    Ok(())
}
