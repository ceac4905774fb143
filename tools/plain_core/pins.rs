//! Commands on PINs. Each takes a try away before it compares.
use crate::board::{Board, PAGE};
use crate::card::{ensure, ensure_use, Card, Refused};
use crate::command::Command;
use crate::journal::Transaction;
use crate::start::{MARK, PINS, PIN_PAGE};

/// Words of a PIN's page.
const UNBLOCKING_TRIES: usize = 1;
const VALUE: usize = 2;
const UNBLOCKING_VALUE: usize = 4;

/// A value of a PIN that a command shows: the words of its tries and of the value, and the secret that is counted.
struct Secret {
    page: usize,
    tries: usize,
    value: usize,
    number: usize,
}

/// The value of a PIN.
fn value_of(pin: usize) -> Secret {
    Secret { page: PAGE * (PIN_PAGE + pin), tries: 0, value: VALUE, number: pin }
}

/// The unblocking value of a PIN.
fn unblocking_value_of(pin: usize) -> Secret {
    let number = PINS + pin;
    Secret { page: PAGE * (PIN_PAGE + pin), tries: UNBLOCKING_TRIES, value: UNBLOCKING_VALUE, number }
}

/// The words of eight bytes.
fn words_of(bytes: &[u8]) -> [u32; 2] {
    [0, 4].map(|from| u32::from_be_bytes([bytes[from], bytes[from + 1], bytes[from + 2], bytes[from + 3]]))
}

impl Secret {
    /// The tries that are left.
    fn left(&self, board: &Board) -> Result<u32, Refused> {
        Ok(board.read(self.page + self.tries)?)
    }

    /// Takes a try away, and compares; the tries that are left where the value is wrong.
    fn guess(&self, board: &mut Board, shown: &[u8]) -> Result<Result<(), u32>, Refused> {
        let left = self.left(board)? - 1;
        board.write(self.page + self.tries, &[left])?;
        let mut kept = [0; 8];
        kept[..4].copy_from_slice(&board.read(self.page + self.value)?.to_be_bytes());
        kept[4..].copy_from_slice(&board.read(self.page + self.value + 1)?.to_be_bytes());
        Ok(if board.compare(self.number, kept, shown)? { Ok(()) } else { Err(left) })
    }
}

impl Card {
    /// VERIFY: without data it answers the tries that are left.
    pub fn verify(&mut self, board: &mut Board, command: Command) -> Result<u16, Refused> {
        let pin = command.pin()?;
        let data = command.data()?;
        ensure(matches!(data.len(), 0 | 8), 0x6700)?;
        ensure_use(board)?;
        let secret = value_of(pin);
        let left = secret.left(board)?;
        if data.is_empty() {
            return Ok(0x63C0 | left as u16);
        }
        ensure(left > 0, 0x6983)?;
        ensure(board.read(secret.page + MARK)? == 1, 0x6984)?;
        if let Err(left) = secret.guess(board, data)? {
            return Ok(self.wrong(pin, left));
        }
        board.write(secret.page, &[3])?;
        Ok(self.right(pin))
    }

    /// CHANGE REFERENCE DATA.
    pub fn change_reference_data(&mut self, board: &mut Board, command: Command) -> Result<u16, Refused> {
        let pin = command.pin()?;
        let data = command.data()?;
        ensure(data.len() == 16, 0x6700)?;
        ensure_use(board)?;
        let secret = value_of(pin);
        ensure(secret.left(board)? > 0, 0x6983)?;
        ensure(board.read(secret.page + MARK)? == 1, 0x6984)?;
        if let Err(left) = secret.guess(board, &data[..8])? {
            return Ok(self.wrong(pin, left));
        }
        let [first, second] = words_of(&data[8..]);
        set_words(board, secret.page, &[(0, 3), (VALUE, first), (VALUE + 1, second)])?;
        Ok(self.right(pin))
    }

    /// RESET RETRY COUNTER: without data it answers the unblocking tries that are left.
    pub fn reset_retry_counter(&mut self, board: &mut Board, command: Command) -> Result<u16, Refused> {
        let pin = command.pin()?;
        let data = command.data()?;
        ensure(matches!(data.len(), 0 | 16), 0x6700)?;
        ensure_use(board)?;
        let secret = unblocking_value_of(pin);
        let left = secret.left(board)?;
        if data.is_empty() {
            return Ok(0x63C0 | left as u16);
        }
        ensure(left > 0, 0x6983)?;
        if let Err(left) = secret.guess(board, &data[..8])? {
            return Ok(0x63C0 | left as u16);
        }
        let [first, second] = words_of(&data[8..]);
        set_words(board, secret.page, &[(0, 3), (UNBLOCKING_TRIES, 10), (VALUE, first), (VALUE + 1, second)])?;
        Ok(self.right(pin))
    }

    /// DISABLE VERIFICATION REQUIREMENT.
    pub fn disable(&mut self, board: &mut Board, command: Command) -> Result<u16, Refused> {
        self.change_requirement(board, command, 0x6984, 0)
    }

    /// ENABLE VERIFICATION REQUIREMENT.
    pub fn enable(&mut self, board: &mut Board, command: Command) -> Result<u16, Refused> {
        self.change_requirement(board, command, 0x6985, 1)
    }

    /// Sets the mark of a PIN, which `status` refuses where the PIN has it.
    fn change_requirement(
        &mut self,
        board: &mut Board,
        command: Command,
        status: u16,
        mark: u32,
    ) -> Result<u16, Refused> {
        let pin = command.pin()?;
        let data = command.data()?;
        ensure(data.len() == 8, 0x6700)?;
        ensure_use(board)?;
        let secret = value_of(pin);
        ensure(secret.left(board)? > 0, 0x6983)?;
        ensure(board.read(secret.page + MARK)? != mark, status)?;
        if let Err(left) = secret.guess(board, data)? {
            return Ok(self.wrong(pin, left));
        }
        set_words(board, secret.page, &[(0, 3), (MARK, mark)])?;
        Ok(self.right(pin))
    }

    /// The PIN is verified; the status word.
    fn right(&mut self, pin: usize) -> u16 {
        self.verified |= 1 << pin;
        0x9000
    }

    /// The PIN is verified no more; the status word.
    fn wrong(&mut self, pin: usize, left: u32) -> u16 {
        self.verified &= !(1 << pin);
        0x63C0 | left as u16
    }
}

/// Sets words of a PIN's page, in one transaction.
fn set_words(board: &mut Board, page: usize, words: &[(usize, u32)]) -> Result<(), Refused> {
    let mut transaction = Transaction::begin(board);
    for (place, word) in words {
        transaction.set(page + place, *word)?;
    }
    transaction.commit()?;
    Ok(())
}
