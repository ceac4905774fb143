//! A card in safe Rust. The answers are those of examples/torn_pair.out and docs/CARD.md.
use std::fs::{File, OpenOptions};
use std::io;
use std::os::unix::io::AsRawFd;
use std::path::{Path, PathBuf};
use std::process::Command;

use soffitfennel::{Card, Error, FreeSpace, Reader, Step, MOST_PAGES, MOST_WORDS, ROOM, WORDS};

const SELECT_ICCID: [u8; 7] = [0x00, 0xA4, 0x00, 0x0C, 0x02, 0x2F, 0xE2];
const READ_ICCID: [u8; 5] = [0x00, 0xB0, 0x00, 0x00, 0x0A];
const ICCID: [u8; 12] = [0x98, 0x10, 0x32, 0x54, 0x76, 0x98, 0x10, 0x32, 0x54, 0x76, 0x90, 0x00];
const VERIFY: [u8; 13] = [0x00, 0x20, 0x00, 0x01, 0x08, 0x31, 0x32, 0x33, 0x34, 0xFF, 0xFF, 0xFF, 0xFF];
const UPDATE: [u8; 9] = [0x00, 0xD6, 0x00, 0x00, 0x04, 0x01, 0x02, 0x03, 0x04];

const LOCK_SHARED_AT_ONCE: i32 = 5;

extern "C" {
    fn flock(file: i32, operation: i32) -> i32;
    fn close(file: i32) -> i32;
    fn write(file: i32, bytes: *const u8, count: usize) -> isize;
}

fn powered() -> Result<Card, Error> {
    let mut card = Card::factory()?;
    card.power_on()?;
    Ok(card)
}

fn iccid(card: &mut Card) -> Result<Vec<u8>, Error> {
    let mut answer = [0; ROOM];
    card.transmit(&SELECT_ICCID, &mut answer)?;
    Ok(card.transmit(&READ_ICCID, &mut answer)?.to_vec())
}

#[test]
fn reads_the_iccid() -> Result<(), Error> {
    assert_eq!(iccid(&mut powered()?)?, ICCID);
    Ok(())
}

#[test]
fn an_update_that_is_cut_is_taken_back() -> Result<(), Error> {
    let mut answer = [0; ROOM];
    let mut card = powered()?;
    card.transmit(&SELECT_ICCID, &mut answer)?;
    assert_eq!(card.transmit(&VERIFY, &mut answer)?, [0x90, 0x00]);
    card.cut(3, 1)?;
    assert_eq!(card.transmit(&UPDATE, &mut answer), Err(Error::Dark));
    assert_eq!(card.transmit(&READ_ICCID, &mut answer), Err(Error::Mute));
    let mut words = vec![0; WORDS];
    let mut other = Card::insert(card.words(&mut words)?)?;
    for it in [&mut card, &mut other] {
        it.power_on()?;
        assert_eq!(iccid(it)?, ICCID);
    }
    Ok(())
}

fn image_of(card: &mut Card) -> Result<Vec<u8>, Error> {
    let mut words = vec![0; WORDS];
    Ok(card.words(&mut words)?.iter().flat_map(|word| word.to_be_bytes()).collect())
}

/// A file with the factory card, which is removed at the end.
struct Kept(PathBuf);

impl Kept {
    fn new(name: &str) -> io::Result<Kept> {
        let kept = Kept(std::env::temp_dir().join(format!("soffitfennel-{name}-{}", std::process::id())));
        std::fs::write(&kept.0, image_of(&mut Card::factory()?)?)?;
        Ok(kept)
    }

    fn open(&self) -> io::Result<File> {
        OpenOptions::new().read(true).write(true).open(&self.0)
    }
}

impl Drop for Kept {
    fn drop(&mut self) {
        let _ = std::fs::remove_file(&self.0);
    }
}

#[test]
fn a_file_has_each_write_of_its_card() -> io::Result<()> {
    let (kept, mut answer) = (Kept::new("writes")?, [0; ROOM]);
    let mut card = Card::attach(kept.open()?)?;
    assert!(card.state()?.has_device);
    card.power_on()?;
    for command in [&SELECT_ICCID[..], &VERIFY, &UPDATE] {
        assert_eq!(card.transmit(command, &mut answer)?, [0x90, 0x00]);
        assert_eq!(std::fs::read(&kept.0)?, image_of(&mut card)?);
    }
    drop(card);
    let mut card = Card::attach(kept.open()?)?;
    card.power_on()?;
    assert_eq!(iccid(&mut card)?[..4], UPDATE[5..]);
    Ok(())
}

#[test]
fn a_file_has_one_user() -> io::Result<()> {
    let kept = Kept::new("user")?;
    let card = Card::attach(kept.open()?)?;
    assert_eq!(Card::attach(kept.open()?).err().map(|it| it.kind()), Some(io::ErrorKind::WouldBlock));
    // SAFETY: the descriptor is open.
    assert_ne!(unsafe { flock(kept.open()?.as_raw_fd(), LOCK_SHARED_AT_ONCE) }, 0);
    drop(card);
    Card::attach(kept.open()?).map(drop)
}

#[test]
fn a_clone_of_a_file_has_no_other_card() -> io::Result<()> {
    let kept = Kept::new("clone")?;
    let file = kept.open()?;
    let other = file.try_clone()?;
    let card = Card::attach(file)?;
    assert_eq!(Card::attach(other.try_clone()?).err().map(|it| it.kind()), Some(io::ErrorKind::WouldBlock));
    drop(card);
    Card::attach(other).map(drop)
}

/// In a process of its own: closes the standard streams, and writes to their numbers once a card has a file. Whether
/// that file got the number of a stream, and is as before.
fn streamless(path: &Path) -> io::Result<bool> {
    let before = std::fs::read(path)?;
    for stream in 0..3 {
        // SAFETY: no value of Rust owns a standard stream.
        unsafe { close(stream) };
    }
    let file = OpenOptions::new().read(true).write(true).open(path)?;
    let is_stream = file.as_raw_fd() < 3;
    let _card = Card::attach(file)?;
    for stream in 0..3 {
        // SAFETY: the bytes are those of a string.
        unsafe { write(stream, "message".as_ptr(), 7) };
    }
    Ok(is_stream && std::fs::read(path)? == before)
}

#[test]
fn a_card_takes_no_place_of_a_stream() -> io::Result<()> {
    const NAMED: &str = "SOFFITFENNEL_STREAMLESS";
    if let Some(path) = std::env::var_os(NAMED) {
        std::process::exit(i32::from(!streamless(path.as_ref()).unwrap_or(false)));
    }
    let kept = Kept::new("streams")?;
    let words = ["--exact", "a_card_takes_no_place_of_a_stream"];
    let ended = Command::new(std::env::current_exe()?).args(words).env(NAMED, &kept.0).output()?;
    assert!(ended.status.success());
    Ok(())
}

#[test]
fn a_file_that_takes_no_write_ends_its_card() -> io::Result<()> {
    let (kept, mut answer) = (Kept::new("refusal")?, [0; ROOM]);
    let mut card = Card::attach(File::open(&kept.0)?)?;
    let outcome = card.power_on().and_then(|()| card.transmit(&VERIFY, &mut answer).map(drop));
    assert_eq!(outcome, Err(Error::Unstored));
    assert!(card.state()?.is_unstored);
    assert_eq!(std::fs::read(&kept.0)?, image_of(&mut Card::factory()?)?);
    Ok(())
}

#[test]
fn a_file_without_a_card_is_an_error() -> io::Result<()> {
    let kept = Kept::new("none")?;
    for (size, wanted) in [(0, Error::Size), (65_535, Error::Size), (65_536, Error::NoCard), (1 << 20, Error::Size)] {
        std::fs::write(&kept.0, vec![0; size])?;
        let error = Card::attach(kept.open()?).map(drop).expect_err("a card of no image");
        assert_eq!(error.get_ref().and_then(|it| it.downcast_ref()), Some(&wanted));
    }
    assert!(Card::attach(OpenOptions::new().read(true).write(true).open("/dev/null")?).is_err());
    Ok(())
}

#[test]
fn faults_are_taken_back() -> Result<(), Error> {
    let mut answer = [0; ROOM];
    let mut card = powered()?;
    card.transmit(&SELECT_ICCID, &mut answer)?;
    card.transmit(&VERIFY, &mut answer)?;
    card.cut(1, 0)?;
    card.lose(1)?;
    assert!(!card.state()?.has_garbling && card.state()?.has_loss);
    card.garble(1)?;
    let state = card.state()?;
    assert!(state.has_power && !state.has_device && state.has_cut && state.has_loss && state.has_garbling);
    card.clear_faults()?;
    let state = card.state()?;
    assert!(!state.has_power && !state.has_cut && !state.has_loss && !state.has_garbling);
    card.power_on()?;
    card.transmit(&SELECT_ICCID, &mut answer)?;
    card.transmit(&VERIFY, &mut answer)?;
    assert_eq!(card.transmit(&UPDATE, &mut answer)?, [0x90, 0x00]);
    Ok(())
}

#[test]
fn a_memory_has_1024_to_4096_pages() -> Result<(), Error> {
    let mut words = vec![0; MOST_WORDS];
    assert_eq!(Card::factory_of(MOST_PAGES)?.words(&mut words)?.len(), MOST_WORDS);
    assert_eq!(Card::factory()?.words(&mut words)?.len(), WORDS);
    for pages in [0, 1_023, 4_097, usize::MAX] {
        assert_eq!(Card::factory_of(pages).err(), Some(Error::Size));
    }
    Ok(())
}

#[test]
fn a_line_that_loses_a_block_changes_no_answer() -> Result<(), Error> {
    let mut card = powered()?;
    card.lose(2)?;
    card.garble(5)?;
    assert_eq!(iccid(&mut card)?, ICCID);
    Ok(())
}

#[test]
fn each_wrong_size_is_an_error() -> Result<(), Error> {
    let mut answer = [0; ROOM];
    let mut card = powered()?;
    assert_eq!(card.transmit(&[], &mut answer), Err(Error::Size));
    assert_eq!(card.transmit(&[0; 262], &mut answer), Err(Error::Size));
    assert_eq!(card.block(&[0; 301], &mut answer), Err(Error::Size));
    assert_eq!(card.cut(0, 0), Err(Error::Size));
    assert_eq!(card.words(&mut [0; 3]), Err(Error::Size));
    assert_eq!(Card::insert(&[0; 17]).err(), Some(Error::Size));
    assert_eq!(Card::insert(&[0; WORDS]).err(), Some(Error::NoCard));
    Ok(())
}

#[test]
fn a_card_goes_to_another_thread() -> Result<(), Error> {
    let mut card = powered()?;
    let free = card.free_space()?;
    let other = std::thread::spawn(move || card.free_space()).join().expect("a thread that ends")?;
    assert_eq!(free, other);
    assert_ne!(free, FreeSpace { blocks: 0, entries: 0 });
    Ok(())
}

#[test]
fn a_reader_repairs_a_lost_block() -> Result<(), Error> {
    let (mut card, mut reader) = (powered()?, Reader::new()?);
    let (mut buffer, mut received) = ([0; ROOM], [0; ROOM]);
    let first = reader.command(&SELECT_ICCID, &mut buffer)?.to_vec();
    assert_eq!(reader.command(&SELECT_ICCID, &mut received), Err(Error::OutOfTurn));
    card.block(&first, &mut received)?;
    // (the reply is lost: the reader asks for it, and the command doesn't run again)
    let Step::Send(asked) = reader.receive(&[], &mut buffer)? else { panic!("no block is sent") };
    assert_eq!(asked, [0x00, 0x82, 0x00, 0x82]);
    let again = card.block(asked, &mut received)?.to_vec();
    assert_eq!(reader.receive(&again, &mut buffer)?, Step::Done(&[0x90, 0x00]));
    assert_eq!(reader.receive(&again, &mut buffer), Err(Error::OutOfTurn));
    assert_eq!(reader.command(&[], &mut buffer), Err(Error::Size));
    Ok(())
}

#[test]
fn a_silent_card_loses_the_link_until_a_reset() -> Result<(), Error> {
    let (mut reader, mut buffer) = (Reader::new()?, [0; ROOM]);
    reader.command(&READ_ICCID, &mut buffer)?;
    for _ in 0..6 {
        assert!(matches!(reader.receive(&[], &mut buffer), Ok(Step::Send(_))));
    }
    assert_eq!(reader.receive(&[], &mut buffer), Err(Error::Lost));
    assert_eq!(reader.command(&READ_ICCID, &mut buffer), Err(Error::Lost));
    reader.reset()?;
    reader.command(&READ_ICCID, &mut buffer)?;
    Ok(())
}
