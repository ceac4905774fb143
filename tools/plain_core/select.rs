//! SELECT, and the template of a file.
use crate::board::{Board, PowerLost};
use crate::card::{ensure_use, give, Card, Refused};
use crate::command::{Command, Selector};
use crate::entry::{child, named, Entry, Head, Kind, DEACTIVATED, MASTER, TERMINATED};

impl Card {
    /// SELECT.
    pub fn select(&mut self, board: &Board, command: Command, answer: &mut Vec<u8>) -> Result<u16, Refused> {
        let (selector, wants_template, expected) = command.selected()?;
        ensure_use(board)?;
        let number = self.selected(board, selector)?.ok_or(Refused::Status(0x6A82))?;
        if wants_template {
            give_template(board, number, expected, answer)?;
        }
        let head = Head::read(board, number)?;
        self.make_current(number, head.kind, head.parent);
        Ok(match head.life {
            DEACTIVATED => 0x6283,
            TERMINATED => 0x6285,
            _ => 0x9000,
        })
    }

    /// The file that SELECT names.
    fn selected(&self, board: &Board, selector: Selector) -> Result<Option<usize>, PowerLost> {
        match selector {
            Selector::Master => Ok(Some(0)),
            Selector::Identifier(id) => self.candidate(board, id),
            Selector::Parent if self.df == 0 => Ok(None),
            Selector::Parent => Ok(Some(Head::read(board, self.df)?.parent)),
            Selector::Name(name) => named(board, name),
            Selector::PathFromMaster(path) => follow(board, 0, path),
            Selector::PathFromCurrent(path) => follow(board, self.df, path),
        }
    }

    /// The file that an identifier reaches: a child of the current DF, a DF beside it, the one above, itself, the MF.
    pub fn candidate(&self, board: &Board, id: u16) -> Result<Option<usize>, PowerLost> {
        if let Some(number) = child(board, self.df, id)? {
            return Ok(Some(number));
        }
        let own = Head::read(board, self.df)?;
        if self.df != 0 {
            if let Some(number) = child(board, own.parent, id)? {
                if Head::read(board, number)?.kind == Kind::Directory {
                    return Ok(Some(number));
                }
            }
            if Head::read(board, own.parent)?.id == id {
                return Ok(Some(own.parent));
            }
        }
        Ok(if own.id == id { Some(self.df) } else { (id == MASTER).then_some(0) })
    }
}

/// The file at the end of a path from a DF, each identifier that of a child.
fn follow(board: &Board, df: usize, path: &[u8]) -> Result<Option<usize>, PowerLost> {
    let mut at = df;
    for id in path.chunks_exact(2) {
        match child(board, at, u16::from_be_bytes([id[0], id[1]]))? {
            Some(number) => at = number,
            None => return Ok(None),
        }
    }
    Ok(Some(at))
}

/// Puts the template of a file into an answer.
#[inline(never)]
fn give_template(
    board: &Board,
    number: usize,
    expected: Option<usize>,
    answer: &mut Vec<u8>,
) -> Result<(), Refused> {
    let entry = Entry::read(board, number)?;
    let mut text = Vec::with_capacity(64);
    text.extend_from_slice(&[0x62, 0]);
    put_descriptor(&entry, &mut text);
    put(0x83, &entry.id.to_be_bytes(), &mut text);
    if entry.kind == Kind::Directory {
        if !entry.name().is_empty() {
            put(0x84, entry.name(), &mut text);
        }
    } else {
        match entry.short {
            0 => put(0x88, &[], &mut text),
            short => put(0x88, &[short << 3], &mut text),
        }
        put(0x80, &entry.size.to_be_bytes(), &mut text);
    }
    put(0x8A, &[entry.life], &mut text);
    put(0x8C, entry.rule(), &mut text);
    text[1] = (text.len() - 2) as u8;
    give(&text, expected, answer)
}

/// Puts the descriptor of a file behind a text.
fn put_descriptor(entry: &Entry, text: &mut Vec<u8>) {
    let [high, low] = entry.record_length.to_be_bytes();
    let records = entry.records as u8;
    match entry.kind {
        Kind::Directory => put(0x82, &[0x78, 0x21], text),
        Kind::Transparent => put(0x82, &[0x41, 0x21], text),
        Kind::Linear => put(0x82, &[0x42, 0x21, high, low, records], text),
        _ => put(0x82, &[0x46, 0x21, high, low, records], text),
    }
}

/// Puts an object behind a text.
fn put(tag: u8, value: &[u8], text: &mut Vec<u8>) {
    text.extend_from_slice(&[tag, value.len() as u8]);
    text.extend_from_slice(value);
}
