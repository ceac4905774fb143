//! DELETE FILE, life cycles of files, and the end of the card's use.
use crate::board::{Board, PowerLost, PAGE};
use crate::card::{ensure, ensure_use, Card, Refused};
use crate::chain::BYTES;
use crate::command::Command;
use crate::entry::{address, is_barred, Entry, Kind, ACTIVATED, DEACTIVATED, ENTRIES, STEPS, TERMINATED};
use crate::journal::Transaction;

impl Card {
    /// The file that a command names, or else its own.
    fn subject(&self, board: &Board, id: Option<u16>, own: Option<usize>) -> Result<usize, Refused> {
        match id {
            None => own.ok_or(Refused::Status(0x6986)),
            Some(id) => self.candidate(board, id)?.ok_or(Refused::Status(0x6A82)),
        }
    }

    /// DELETE FILE: a file goes with all files below it, in one transaction.
    pub fn delete(&mut self, board: &mut Board, command: Command) -> Result<u16, Refused> {
        let id = command.subject()?;
        ensure_use(board)?;
        let number = self.subject(board, id, Some(self.ef.unwrap_or(self.df)))?;
        ensure(number != 0, 0x6985)?;
        let entry = Entry::read(board, number)?;
        let above = usize::from(entry.parent);
        ensure(!is_barred(board, above)?, 0x6985)?;
        let parent = Entry::read(board, above)?;
        let is_allowed = self.is_allowed(board, &entry, 7)? || self.is_allowed(board, &parent, 1)?;
        ensure(is_allowed, 0x6982)?;
        let going = files_within(board, number)?;
        self.free.blocks += remove(board, &going)?;
        self.free.entries += going.len();
        (self.df, self.ef, self.record) = (above, None, None);
        Ok(0x9000)
    }

    /// ACTIVATE FILE.
    pub fn activate(&mut self, board: &mut Board, command: Command) -> Result<u16, Refused> {
        let own = Some(self.ef.unwrap_or(self.df));
        self.change_life(board, command, own, 5, |life| (life != TERMINATED).then_some(ACTIVATED), |_| true)
    }

    /// DEACTIVATE FILE.
    pub fn deactivate(&mut self, board: &mut Board, command: Command) -> Result<u16, Refused> {
        let own = Some(self.ef.unwrap_or(self.df));
        let next = |life| matches!(life, ACTIVATED | DEACTIVATED).then_some(DEACTIVATED);
        self.change_life(board, command, own, 4, next, |_| true)
    }

    /// TERMINATE DF.
    pub fn terminate_df(&mut self, board: &mut Board, command: Command) -> Result<u16, Refused> {
        self.change_life(board, command, Some(self.df), 6, terminated, |kind| kind == Kind::Directory)
    }

    /// TERMINATE EF.
    pub fn terminate_ef(&mut self, board: &mut Board, command: Command) -> Result<u16, Refused> {
        self.change_life(board, command, self.ef, 6, terminated, |kind| kind != Kind::Directory)
    }

    /// A file is in another life cycle; where it is in that one already, nothing is written.
    fn change_life(
        &mut self,
        board: &mut Board,
        command: Command,
        own: Option<usize>,
        bit: u8,
        next: fn(u8) -> Option<u8>,
        is_right: fn(Kind) -> bool,
    ) -> Result<u16, Refused> {
        let id = command.subject()?;
        ensure_use(board)?;
        let number = self.subject(board, id, own)?;
        let entry = Entry::read(board, number)?;
        ensure(number == 0 || !is_barred(board, usize::from(entry.parent))?, 0x6985)?;
        let life = next(entry.life).ok_or(Refused::Status(0x6985))?;
        ensure(is_right(entry.kind), 0x6981)?;
        ensure(self.is_allowed(board, &entry, bit)?, 0x6982)?;
        if life != entry.life {
            set_word(board, address(number), Entry { life, ..entry }.words()[0])?;
        }
        self.make_current(number, entry.kind, usize::from(entry.parent));
        Ok(0x9000)
    }

    /// TERMINATE CARD USAGE.
    pub fn terminate_card_usage(&mut self, board: &mut Board, command: Command) -> Result<u16, Refused> {
        command.no_parameters()?;
        ensure(command.data()?.is_empty(), 0x6700)?;
        ensure_use(board)?;
        let master = Entry::read(board, 0)?;
        ensure(self.is_allowed(board, &master, 6)?, 0x6982)?;
        set_word(board, 2, 1)?;
        Ok(0x9000)
    }
}

/// The life cycle after a termination.
fn terminated(life: u8) -> Option<u8> {
    (life != TERMINATED).then_some(TERMINATED)
}

/// Sets a word, in one transaction.
fn set_word(board: &mut Board, at: usize, word: u32) -> Result<(), Refused> {
    let mut transaction = Transaction::begin(board);
    transaction.set(at, word)?;
    transaction.commit()?;
    Ok(())
}

/// The numbers of a file's entry and of all entries below it, ascending.
fn files_within(board: &Board, top: usize) -> Result<Vec<usize>, PowerLost> {
    let mut parents = [0; ENTRIES];
    let mut used = 0_u64;
    for (number, parent) in parents.iter_mut().enumerate() {
        if board.read(address(number))? != 0 {
            used |= 1 << number;
            *parent = (board.read(address(number) + 1)? >> 24) as usize;
        }
    }
    let is_within = |number: usize| {
        let mut at = number;
        for _ in 0..STEPS {
            if at == top || at == 0 {
                break;
            }
            at = parents[at];
        }
        at == top
    };
    Ok((1..ENTRIES).filter(|number| used >> number & 1 == 1 && is_within(*number)).collect())
}

/// Frees entries, and gives the blocks of their files back, in one transaction; how many blocks.
fn remove(board: &mut Board, going: &[usize]) -> Result<usize, PowerLost> {
    let mut chains = Vec::with_capacity(going.len());
    let mut blocks = 0;
    for number in going {
        if board.read(address(*number))? >> 24 != Kind::Directory as u32 {
            let ends = board.read(address(*number) + 9)?;
            chains.push(((ends >> 16), (ends & 0xFFFF) as usize));
            blocks += ((board.read(address(*number) + 8)? >> 16) as usize).div_ceil(BYTES);
        }
    }
    let mut transaction = Transaction::begin(board);
    for number in going {
        transaction.set(address(*number), 0)?;
    }
    if !chains.is_empty() {
        let mut page = transaction.board().read(1)?;
        for (first, last) in chains.iter().rev() {
            transaction.set(PAGE * last, page)?;
            page = *first;
        }
        transaction.set(1, page)?;
    }
    transaction.commit()?;
    Ok(blocks)
}
