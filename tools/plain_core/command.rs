//! The form of a command: its header, the bytes behind it, and the file or record that they name.
use crate::card::Refused;

/// The status word of a wrong length, and of wrong P1 or P2.
const LENGTH: Refused = Refused::Status(0x6700);
const PARAMETERS: Refused = Refused::Status(0x6A86);

/// A command: its parameters, and what follows them.
pub struct Command<'a> {
    pub p1: u8,
    pub p2: u8,
    pub rest: &'a [u8],
}

/// The file that a command on contents names.
#[derive(Clone, Copy)]
pub enum Target {
    Current,
    Short(u8),
}

/// The record that a command names.
#[derive(Clone, Copy)]
pub enum Choice {
    Next,
    Previous,
    Current,
    Number(u8),
}

/// How SELECT names a file.
pub enum Selector<'a> {
    Master,
    Identifier(u16),
    Parent,
    Name(&'a [u8]),
    PathFromMaster(&'a [u8]),
    PathFromCurrent(&'a [u8]),
}

impl<'a> Command<'a> {
    /// The data, and how many bytes Le requests.
    pub fn body(&self) -> Result<(&'a [u8], Option<usize>), Refused> {
        let bytes = |expected: u8| Some(if expected == 0 { 256 } else { usize::from(expected) });
        match *self.rest {
            [] => Ok((&[], None)),
            [expected] => Ok((&[], bytes(expected))),
            [0, ..] => Err(LENGTH),
            [length, ref data @ ..] if data.len() == usize::from(length) => Ok((data, None)),
            [length, ref data @ .., expected] if data.len() == usize::from(length) => Ok((data, bytes(expected))),
            _ => Err(LENGTH),
        }
    }

    /// How many bytes Le requests, where there is no data.
    pub fn expected(&self) -> Result<usize, Refused> {
        match self.body()? {
            ([], Some(expected)) => Ok(expected),
            _ => Err(LENGTH),
        }
    }

    /// The data, without Le.
    pub fn data(&self) -> Result<&'a [u8], Refused> {
        match self.body()? {
            (data, None) => Ok(data),
            _ => Err(LENGTH),
        }
    }

    /// The data, at least one byte, without Le.
    pub fn some_data(&self) -> Result<&'a [u8], Refused> {
        match self.data()? {
            [] => Err(LENGTH),
            data => Ok(data),
        }
    }

    /// The data, at least one byte, and Le.
    pub fn text(&self) -> Result<(&'a [u8], Option<usize>), Refused> {
        match self.body()? {
            ([], _) => Err(LENGTH),
            body => Ok(body),
        }
    }

    /// Refuses P1 and P2 other than 00 00.
    pub fn no_parameters(&self) -> Result<(), Refused> {
        match (self.p1, self.p2) {
            (0, 0) => Ok(()),
            _ => Err(PARAMETERS),
        }
    }

    /// The file and the offset of a command on bytes.
    pub fn place(&self) -> Result<(Target, usize), Refused> {
        match self.p1 {
            0..=0x7F => Ok((Target::Current, usize::from(u16::from_be_bytes([self.p1, self.p2])))),
            0x81..=0x9E => Ok((Target::Short(self.p1 - 0x80), usize::from(self.p2))),
            _ => Err(PARAMETERS),
        }
    }

    /// The file that P2 of a command on records names.
    fn record_file(&self) -> Result<Target, Refused> {
        match self.p2 >> 3 {
            0 => Ok(Target::Current),
            31 => Err(PARAMETERS),
            short => Ok(Target::Short(short)),
        }
    }

    /// The record that P1 names.
    fn record_at(&self) -> Choice {
        match self.p1 {
            0 => Choice::Current,
            number => Choice::Number(number),
        }
    }

    /// The file and the record of READ RECORD and UPDATE RECORD.
    pub fn record(&self) -> Result<(Target, Choice), Refused> {
        let choice = match self.p2 & 7 {
            2 if self.p1 == 0 => Choice::Next,
            3 if self.p1 == 0 => Choice::Previous,
            4 => self.record_at(),
            _ => return Err(PARAMETERS),
        };
        Ok((self.record_file()?, choice))
    }

    /// The file of APPEND RECORD.
    pub fn appended(&self) -> Result<Target, Refused> {
        match (self.p1, self.p2 & 7) {
            (0, 0) => self.record_file(),
            _ => Err(PARAMETERS),
        }
    }

    /// The file, the first record and the direction of SEARCH RECORD: true for forward.
    pub fn searched(&self) -> Result<(Target, Choice, bool), Refused> {
        match self.p2 & 7 {
            mode @ (4 | 5) => Ok((self.record_file()?, self.record_at(), mode == 4)),
            _ => Err(PARAMETERS),
        }
    }

    /// The PIN that P1 and P2 name, counted from 0.
    pub fn pin(&self) -> Result<usize, Refused> {
        match (self.p1, self.p2) {
            (0, pin @ 1..=8) => Ok(usize::from(pin - 1)),
            _ => Err(PARAMETERS),
        }
    }

    /// The identifier of the file that a command on files names, if it names one.
    pub fn subject(&self) -> Result<Option<u16>, Refused> {
        self.no_parameters()?;
        match *self.data()? {
            [] => Ok(None),
            [high, low] => Ok(Some(u16::from_be_bytes([high, low]))),
            _ => Err(LENGTH),
        }
    }

    /// The file that SELECT names, whether it requests the template, and how many bytes of it.
    pub fn selected(&self) -> Result<(Selector<'a>, bool, Option<usize>), Refused> {
        if !matches!((self.p1, self.p2), (0x00 | 0x03 | 0x04 | 0x08 | 0x09, 0x04 | 0x0C)) {
            return Err(PARAMETERS);
        }
        let (data, expected) = self.body()?;
        let is_path = data.len() % 2 == 0 && (2..=14).contains(&data.len());
        let selector = match (self.p1, data) {
            (0x00, []) => Selector::Master,
            (0x00, &[high, low]) => Selector::Identifier(u16::from_be_bytes([high, low])),
            (0x03, []) => Selector::Parent,
            (0x04, name) if (1..=16).contains(&name.len()) => Selector::Name(name),
            (0x08, path) if is_path => Selector::PathFromMaster(path),
            (0x09, path) if is_path => Selector::PathFromCurrent(path),
            _ => return Err(LENGTH),
        };
        Ok((selector, self.p2 == 0x04, expected))
    }
}
