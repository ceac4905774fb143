//! Commands on bytes and records.
use crate::board::Board;
use crate::card::{check_length, ensure, give, Card, Found, Refused};
use crate::chain::{read_bytes, set_bytes, Place};
use crate::command::{Choice, Command, Target};
use crate::entry::{address, Entry, Kind};
use crate::journal::Transaction;
use crate::script::find_byte;

/// The word of an entry that counts its records.
const RECORDS_WORD: usize = 10;

impl Card {
    /// READ BINARY.
    pub fn read_binary(&mut self, board: &Board, command: Command, answer: &mut Vec<u8>) -> Result<u16, Refused> {
        let (target, offset) = command.place()?;
        let expected = command.expected()?;
        let found = self.find(board, target, |kind| kind == Kind::Transparent, 1)?;
        let size = usize::from(found.entry.size);
        ensure(offset < size, 0x6B00)?;
        let count = expected.min(size - offset);
        read_bytes(board, found.entry.first, offset, count, answer)?;
        self.keep(target, &found);
        Ok(if count < expected && expected < 256 { 0x6282 } else { 0x9000 })
    }

    /// UPDATE BINARY.
    pub fn update_binary(&mut self, board: &mut Board, command: Command) -> Result<u16, Refused> {
        let (target, offset) = command.place()?;
        let data = command.some_data()?;
        let found = self.find(board, target, |kind| kind == Kind::Transparent, 2)?;
        let size = usize::from(found.entry.size);
        ensure(offset < size, 0x6B00)?;
        ensure(data.len() <= size - offset, 0x6A84)?;
        let mut transaction = Transaction::begin(board);
        set_bytes(&mut transaction, found.entry.first, offset, data)?;
        transaction.commit()?;
        self.keep(target, &found);
        Ok(0x9000)
    }

    /// READ RECORD.
    pub fn read_record(&mut self, board: &Board, command: Command, answer: &mut Vec<u8>) -> Result<u16, Refused> {
        let (target, choice) = command.record()?;
        let expected = command.expected()?;
        let found = self.find(board, target, Kind::has_records, 1)?;
        let number = self.record_of(target, choice, &found.entry)?;
        let length = found.entry.record_length;
        ensure(expected == 256 || expected == usize::from(length), 0x6C00 | length)?;
        read_bytes(board, found.entry.first, found.entry.offset_of(number), usize::from(length), answer)?;
        self.point(target, &found, choice, number);
        Ok(0x9000)
    }

    /// UPDATE RECORD: in a linear file the record is replaced, in a cyclic one the new record goes in front.
    pub fn update_record(&mut self, board: &mut Board, command: Command) -> Result<u16, Refused> {
        let (target, choice) = command.record()?;
        let data = command.some_data()?;
        let is_right = match choice {
            Choice::Previous => Kind::has_records,
            _ => |kind| kind == Kind::Linear,
        };
        let found = self.find(board, target, is_right, 2)?;
        if found.entry.kind == Kind::Cyclic {
            ensure(found.entry.records > 0, 0x6A83)?;
            ensure(data.len() == usize::from(found.entry.record_length), 0x6700)?;
            put_front(board, &found, data, found.entry.records)?;
            return Ok(self.made_first(target, &found));
        }
        let number = self.record_of(target, choice, &found.entry)?;
        ensure(data.len() == usize::from(found.entry.record_length), 0x6700)?;
        let mut transaction = Transaction::begin(board);
        set_bytes(&mut transaction, found.entry.first, found.entry.offset_of(number), data)?;
        transaction.commit()?;
        self.point(target, &found, choice, number);
        Ok(0x9000)
    }

    /// APPEND RECORD: the last record of a linear file, the first one of a cyclic file.
    pub fn append_record(&mut self, board: &mut Board, command: Command) -> Result<u16, Refused> {
        let target = command.appended()?;
        let data = command.some_data()?;
        let found = self.find(board, target, Kind::has_records, 3)?;
        let (entry, is_ring) = (&found.entry, found.entry.kind == Kind::Cyclic);
        ensure(is_ring || entry.records < entry.capacity(), 0x6A84)?;
        ensure(data.len() == usize::from(entry.record_length), 0x6700)?;
        if is_ring {
            put_front(board, &found, data, entry.capacity().min(entry.records + 1))?;
            return Ok(self.made_first(target, &found));
        }
        let more = Entry { records: entry.records + 1, ..*entry };
        put_record(board, &found, more.offset_of(more.records), data, more.ring())?;
        self.keep(target, &found);
        self.record = Some(more.records);
        Ok(0x9000)
    }

    /// SEARCH RECORD.
    pub fn search_record(&mut self, board: &Board, command: Command, answer: &mut Vec<u8>) -> Result<u16, Refused> {
        let (target, first, is_forward) = command.searched()?;
        let (text, expected) = command.text()?;
        let found = self.find(board, target, Kind::has_records, 1)?;
        let from = self.record_of(target, first, &found.entry)?;
        let numbers = search(board, &found.entry, from, is_forward, text)?;
        give(&numbers, expected, answer)?;
        self.keep(target, &found);
        Ok(match numbers.first() {
            Some(number) => {
                self.record = Some(u16::from(*number));
                0x9000
            }
            None => 0x6282,
        })
    }

    /// INCREASE: the sum of record 1 and the sent number becomes record 1.
    pub fn increase(&mut self, board: &mut Board, command: Command, answer: &mut Vec<u8>) -> Result<u16, Refused> {
        command.no_parameters()?;
        let (amount, expected) = command.text()?;
        let found = self.find(board, Target::Current, |kind| kind == Kind::Cyclic, 2)?;
        let length = usize::from(found.entry.record_length);
        ensure(amount.len() <= length && length + amount.len() <= 256, 0x6700)?;
        ensure(found.entry.records > 0, 0x6A83)?;
        let mut sum = Vec::with_capacity(256);
        read_bytes(board, found.entry.first, found.entry.offset_of(1), length, &mut sum)?;
        ensure(!add(&mut sum, amount), 0x9850)?;
        check_length(length + amount.len(), expected)?;
        put_front(board, &found, &sum, found.entry.records)?;
        if expected.is_some() {
            answer.extend_from_slice(&sum);
            answer.extend_from_slice(amount);
        }
        Ok(self.made_first(Target::Current, &found))
    }

    /// The number of the record that a command names.
    fn record_of(&self, target: Target, choice: Choice, entry: &Entry) -> Result<u16, Refused> {
        let pointer = self.record.filter(|_| matches!(target, Target::Current));
        let (records, wraps) = (entry.records, entry.kind == Kind::Cyclic);
        let number = match (choice, pointer) {
            (Choice::Next, Some(at)) if at == records && wraps => Some(1),
            (Choice::Next, at) => Some(at.unwrap_or(0) + 1),
            (Choice::Previous, Some(1)) if !wraps => None,
            (Choice::Previous, Some(at)) if at > 1 => Some(at - 1),
            (Choice::Previous, _) => Some(records),
            (Choice::Current, at) => at,
            (Choice::Number(number), _) => Some(u16::from(number)),
        };
        number.filter(|number| (1..=records).contains(number)).ok_or(Refused::Status(0x6A83))
    }

    /// The session after a record was read or replaced: the next and the previous one become the current one.
    fn point(&mut self, target: Target, found: &Found, choice: Choice, number: u16) {
        self.keep(target, found);
        if matches!(choice, Choice::Next | Choice::Previous) {
            self.record = Some(number);
        }
    }

    /// The session after a record was put in front; the status word.
    fn made_first(&mut self, target: Target, found: &Found) -> u16 {
        self.keep(target, found);
        self.record = Some(1);
        0x9000
    }
}

/// Puts a record before the first one of a cyclic file, in one transaction.
fn put_front(board: &mut Board, found: &Found, data: &[u8], records: u16) -> Result<(), Refused> {
    let capacity = found.entry.capacity();
    let start = (found.entry.start + capacity - 1) % capacity;
    let entry = Entry { records, start, ..found.entry };
    put_record(board, found, entry.offset_of(1), data, entry.ring())
}

/// Puts a record into its slot, and then the word of the entry that counts records, in one transaction.
fn put_record(board: &mut Board, found: &Found, offset: usize, data: &[u8], ring: u32) -> Result<(), Refused> {
    let mut transaction = Transaction::begin(board);
    set_bytes(&mut transaction, found.entry.first, offset, data)?;
    transaction.set(address(found.number) + RECORDS_WORD, ring)?;
    transaction.commit()?;
    Ok(())
}

/// The numbers of the records that contain a text, from a record to the last one, or down to the first. A record that
/// lies behind the one before is read from there on, so that the chain is not walked from its first block again.
fn search(board: &Board, entry: &Entry, from: u16, is_forward: bool, text: &[u8]) -> Result<Vec<u8>, Refused> {
    let mut numbers = Vec::with_capacity(256);
    let mut bytes = Vec::with_capacity(256);
    let mut place = Place::of(board, entry.first, 0)?;
    let length = usize::from(entry.record_length);
    let count = if is_forward { entry.records + 1 - from } else { from };
    for step in 0..count {
        let number = if is_forward { from + step } else { from - step };
        let offset = entry.offset_of(number);
        place = place.go_to(board, entry.first, offset)?;
        bytes.clear();
        place.read(board, length, &mut bytes)?;
        if contains(&bytes, text) {
            numbers.push(number as u8);
        }
    }
    Ok(numbers)
}

/// Whether bytes contain a text, which has a byte.
fn contains(bytes: &[u8], text: &[u8]) -> bool {
    let mut rest = bytes;
    while let Some(at) = find_byte(rest, text[0]) {
        if rest[at..].starts_with(text) {
            return true;
        }
        rest = &rest[at + 1..];
    }
    false
}

/// Adds a number to another one, the most significant byte first; whether the sum is too long.
fn add(sum: &mut [u8], amount: &[u8]) -> bool {
    let mut carry = false;
    for (place, own) in sum.iter_mut().rev().enumerate() {
        let other = if place < amount.len() { amount[amount.len() - 1 - place] } else { 0 };
        let (total, first) = own.overflowing_add(other);
        let (total, second) = total.overflowing_add(u8::from(carry));
        (*own, carry) = (total, first || second);
    }
    carry
}
