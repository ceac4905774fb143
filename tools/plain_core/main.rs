//! A plain card core: the card and its bench in good Rust, without a contract or a proof.
//!
//! `tools/dev/cost` compares the cost of the bench with it, so it has all duties of the card: a power-on that checks
//! the whole memory, life cycles, access rules, commits that a power loss can't tear, a PIN's tries, both ends of the
//! link, and the script's limits. It makes the device writes that the card makes, in the same order, so that a power
//! loss leaves the same memory. It needs a compiler and nothing else: `rustc -O main.rs`.
mod board;
mod card;
mod chain;
mod changes;
mod command;
mod contents;
mod create;
mod entry;
mod journal;
mod link;
mod pins;
mod script;
mod select;
mod start;

use board::{Board, PowerLost};
use card::Card;
use link::{CardEnd, Line, Next, ReaderEnd};
use script::{encode, find_byte, Order};
use std::fs::File;
use std::io::{self, BufRead, BufReader, Write};
use std::os::fd::AsFd;
use std::process::ExitCode;

/// The most bytes of a script.
const SCRIPT: usize = 16_777_216;
/// Bytes of a line that are read at most: with its end, and one that is too many.
const LINE: u64 = 1_026;
/// Blocks that an exchange may put on the line.
const BLOCKS: usize = 1_000;

/// A desk with the board, the card while power is on, and the reader while it may send.
struct Desk {
    board: Board,
    card: Option<Card>,
    end: CardEnd,
    reader: ReaderEnd,
    has_reader: bool,
    line: Line,
    block: Vec<u8>,
    reply: Vec<u8>,
}

impl Desk {
    /// The factory card, power off.
    fn new() -> Desk {
        let (block, reply) = (Vec::with_capacity(300), Vec::with_capacity(300));
        let (reader, line) = (ReaderEnd::new(), Line::default());
        Desk { board: Board::factory(), card: None, end: CardEnd::new(), reader, has_reader: false, line, block, reply }
    }

    /// Does what a line asks for; `text` gets what it prints.
    fn perform(&mut self, order: Order, bytes: &[u8], text: &mut Vec<u8>) {
        match order {
            Order::Nothing => {}
            Order::On => text.extend_from_slice(self.power_on()),
            Order::Off => self.go_dark(),
            Order::Free => match &self.card {
                Some(card) => {
                    let free = card.free;
                    text.extend_from_slice(format!("free {} {}\n", free.blocks, free.entries).as_bytes());
                }
                None => text.extend_from_slice(b"mute\n"),
            },
            Order::Command => self.command(bytes, text),
            Order::Block => self.take_block(bytes, text),
            Order::Cut(number, mask) => self.board.arm(number, mask),
            Order::Lose(number) => self.line.lose = Some(number - 1),
            Order::Garble(number) => self.line.garble = Some(number - 1),
        }
    }

    /// Power goes off.
    fn go_dark(&mut self) {
        self.board.power_off();
        self.card = None;
        self.has_reader = false;
    }

    /// Power goes off, and comes on; what is printed.
    fn power_on(&mut self) -> &'static [u8] {
        self.go_dark();
        if !self.board.light() {
            return b"mute\n";
        }
        match Card::start(&mut self.board) {
            Ok(Some(card)) => {
                self.card = Some(card);
                self.end.reset();
                self.reader.reset();
                self.has_reader = true;
                b"atr 3B808131FE458B\n"
            }
            Ok(None) => {
                self.go_dark();
                b"mute\n"
            }
            Err(PowerLost) => b"dark\n",
        }
    }

    /// A command goes through both ends of the link.
    fn command(&mut self, command: &[u8], text: &mut Vec<u8>) {
        if self.card.is_none() {
            return text.extend_from_slice(b"mute\n");
        }
        if !self.has_reader {
            return text.extend_from_slice(b"lost\n");
        }
        match self.exchange(command) {
            Ok(Next::Done) => print(self.reader.answer(), text),
            Ok(next) => {
                self.has_reader = matches!(next, Next::Unknown);
                text.extend_from_slice(b"lost\n");
            }
            Err(PowerLost) => {
                self.go_dark();
                text.extend_from_slice(b"dark\n");
            }
        }
    }

    /// Blocks go to and fro, until the reader's end has ended.
    fn exchange(&mut self, command: &[u8]) -> Result<Next, PowerLost> {
        let Some(card) = &mut self.card else { return Ok(Next::Failed) };
        let end = &mut self.end;
        let mut next = self.reader.send(command, &mut self.block);
        let mut is_for_card = true;
        for _ in 0..BLOCKS {
            if !matches!(next, Next::Send) {
                return Ok(next);
            }
            let block = if is_for_card { &mut self.block } else { &mut self.reply };
            let arrives = self.line.put(block);
            if arrives && is_for_card {
                end.take(card, &mut self.board, &self.block, &mut self.reply)?;
            } else if arrives {
                next = self.reader.take(&self.reply, &mut self.block);
            } else {
                next = self.reader.wait_in_vain(&mut self.block);
            }
            is_for_card = !(arrives && is_for_card);
        }
        Ok(if matches!(next, Next::Send) { Next::Failed } else { next })
    }

    /// A block goes straight to the card's end; no command comes after it.
    fn take_block(&mut self, block: &[u8], text: &mut Vec<u8>) {
        let Some(card) = &mut self.card else { return text.extend_from_slice(b"mute\n") };
        self.has_reader = false;
        match self.end.take(card, &mut self.board, block, &mut self.reply) {
            Ok(()) => print(&self.reply, text),
            Err(PowerLost) => {
                self.go_dark();
                text.extend_from_slice(b"dark\n");
            }
        }
    }
}

/// Prints an answer or a block.
fn print(bytes: &[u8], text: &mut Vec<u8>) {
    text.extend_from_slice(b"< ");
    encode(bytes, text);
    text.push(b'\n');
}

/// Reads a line, with its end, at most so many bytes; how many.
fn read_line(script: &mut impl BufRead, line: &mut Vec<u8>) -> io::Result<usize> {
    while line.len() < LINE as usize {
        let there = script.fill_buf()?;
        let there = &there[..there.len().min(LINE as usize - line.len())];
        let (count, ends) = match find_byte(there, b'\n') {
            Some(at) => (at + 1, true),
            None => (there.len(), there.is_empty()),
        };
        line.extend_from_slice(&there[..count]);
        script.consume(count);
        if ends {
            break;
        }
    }
    Ok(line.len())
}

/// Takes the end of a line away, and the CR before it.
fn without_end(line: &[u8]) -> &[u8] {
    match line.strip_suffix(b"\n") {
        Some(line) => line.strip_suffix(b"\r").unwrap_or(line),
        None => line,
    }
}

/// Why a run ends before the script.
enum Fault {
    BadLine(usize),
    Read,
    Write,
}

/// Runs a script, and answers each line before it reads the next.
fn run(mut script: impl BufRead, mut output: impl Write) -> Result<(), Fault> {
    let mut desk = Desk::new();
    let (mut line, mut bytes, mut text) = (Vec::with_capacity(1_100), Vec::with_capacity(300), Vec::with_capacity(600));
    let (mut number, mut size) = (0, 0);
    loop {
        line.clear();
        let read = read_line(&mut script, &mut line).map_err(|_| Fault::Read)?;
        if read == 0 {
            return Ok(());
        }
        (number, size) = (number + 1, size + read);
        let order = Order::parse(without_end(&line), &mut bytes).ok_or(Fault::BadLine(number))?;
        if size > SCRIPT {
            return Err(Fault::Read);
        }
        text.clear();
        desk.perform(order, &bytes, &mut text);
        if !text.is_empty() {
            output.write_all(&text).map_err(|_| Fault::Write)?;
        }
    }
}

fn main() -> ExitCode {
    // (both as files, so that nothing holds a line back, or locks)
    let Ok(script) = io::stdin().as_fd().try_clone_to_owned() else { return ExitCode::from(3) };
    let Ok(output) = io::stdout().as_fd().try_clone_to_owned() else { return ExitCode::from(4) };
    match run(BufReader::new(File::from(script)), File::from(output)) {
        Ok(()) => ExitCode::SUCCESS,
        Err(Fault::BadLine(number)) => {
            eprintln!("error line {number}");
            ExitCode::from(2)
        }
        Err(Fault::Read) => ExitCode::from(3),
        Err(Fault::Write) => ExitCode::from(4),
    }
}
