//! Why a log was not played, an image not taken or a VGM file not imported, in words that a person can act on.
use crate::vgm::{bad_header, command_fault, BadHeader, CommandFault};
use std::fmt;

/// Why a log was not played, an image not taken or not made, or a VGM file not imported. Nothing was written then.
#[derive(Clone, Copy, Debug, PartialEq, Eq)]
pub enum Refusal {
    /// 3
    TooLong,
    /// 4
    BadStart(BadStart),
    /// 5: the place of the wrong record's first length byte, the place of the first offending byte, and what is wrong with it.
    WrongRecord { record: usize, place: usize, fault: Fault },
    /// 6
    NoRoom { needed: usize },
    /// 7
    WrongImage,
    /// 8
    NoRoomForImage { needed: usize },
    /// 9
    BadHeader(BadHeader),
    /// 10: the place of the command, or with no end the file's length, and what is wrong with it.
    WrongCommand { place: usize, fault: CommandFault },
    /// 11
    VgmTooLong,
    /// FFFF hex: memory that cannot be lent. The functions of this crate lend slices alone, and do not get it.
    BadMemory,
    /// Numbers that the table does not have, or a log or file that this crate finds nothing wrong with: the library is not the one that it was written for.
    Unknown { refusal: u64, number: u64 },
}

/// What is wrong with a log's first two bytes.
#[derive(Clone, Copy, Debug, PartialEq, Eq)]
pub enum BadStart {
    /// There are not two.
    TooShort,
    /// Neither 1 nor 2.
    Version,
    /// Above 3.
    Start,
}

/// What is wrong with a record, in the order in which it is tried. A later version of logs may bring more.
#[derive(Clone, Copy, Debug, PartialEq, Eq)]
#[non_exhaustive]
pub enum Fault {
    /// One length byte, and the log ends. Place: the record's start.
    LengthCut,
    /// Fewer bytes than the length says. Place: where the log ends.
    BodyCut,
    /// A length of 0. Place: the record's start.
    Empty,
    /// A kind that there is not. Place: the kind byte.
    Kind,
    /// Not the kind's length in the log's version. Place: the record's start.
    Length,
    /// Outside FF10..FF3F. Place: its high byte.
    Address,
    /// Neither 0 nor 1. Place: the speed byte.
    Speed,
    /// Above 63, in version 2. Place: the phase byte.
    Phase,
    /// 0 or above 16,384. Place: its high byte.
    Count,
}

impl fmt::Display for BadStart {
    fn fmt(&self, f: &mut fmt::Formatter) -> fmt::Result {
        f.write_str(match self {
            BadStart::TooShort => "a log has two bytes or more, version and start, and this one has not",
            BadStart::Version => "byte 0: the log's version is neither 1 nor 2",
            BadStart::Start => "byte 1: the log's start byte is above 3",
        })
    }
}

impl fmt::Display for Fault {
    fn fmt(&self, f: &mut fmt::Formatter) -> fmt::Result {
        f.write_str(match self {
            Fault::LengthCut => "the log ends within the record's length bytes",
            Fault::BodyCut => "the log ends before the record's length is reached",
            Fault::Empty => "the record's length is 0",
            Fault::Kind => "the record's kind is none of 1, 2, 3 and 4",
            Fault::Length => "the record's length is not that of its kind: 4 for kind 1, 3 for kind 2, 5 for kind 3 (6 in version 2), 1 for kind 4",
            Fault::Address => "the record's address is outside FF10 to FF3F",
            Fault::Speed => "the record's speed is neither 0 nor 1",
            Fault::Phase => "the record's phase is above 63",
            Fault::Count => "the record's count is 0 or above 16,384",
        })
    }
}

impl fmt::Display for Refusal {
    fn fmt(&self, f: &mut fmt::Formatter) -> fmt::Result {
        match self {
            Refusal::TooLong => write!(f, "the log is longer than 65,536 bytes"),
            Refusal::BadStart(what) => what.fmt(f),
            Refusal::WrongRecord { place, fault, .. } => write!(f, "byte {place}: {fault}"),
            Refusal::NoRoom { needed } => write!(f, "the output is shorter than the {needed} bytes needed"),
            Refusal::WrongImage => write!(f, "the image is not one that is taken: its version, its length or a field is wrong"),
            Refusal::NoRoomForImage { needed } => write!(f, "the place for the image is shorter than the {needed} bytes needed"),
            Refusal::BadHeader(what) => what.fmt(f),
            Refusal::WrongCommand { place, fault } => write!(f, "byte {place}: {fault}"),
            Refusal::VgmTooLong => {
                write!(f, "the log would be longer than 65,536 bytes: at 60 ticks a second one log has room for some 14 to 68 seconds of music")
            }
            Refusal::BadMemory => write!(f, "the memory lent is null, overlaps or passes the address space"),
            Refusal::Unknown { refusal, number } => write!(f, "refusal {refusal} with {number}, which this crate does not know: is the library of another version?"),
        }
    }
}

impl std::error::Error for Refusal {}

/// What an entry's answer to a log says: the bytes written, or why it was refused.
pub(crate) fn judge(answer: u64, log: &[u8]) -> Result<usize, Refusal> {
    answered(answer, |refusal, number| match refusal {
        3 => Some(Refusal::TooLong),
        4 => bad_start(log).map(Refusal::BadStart),
        5 => fault_at(log, number).map(|(place, fault)| Refusal::WrongRecord { record: number, place, fault }),
        7 => Some(Refusal::WrongImage),
        8 => Some(Refusal::NoRoomForImage { needed: number }),
        _ => None,
    })
}

/// What the answer to a VGM file says.
pub(crate) fn judge_import(answer: u64, vgm: &[u8]) -> Result<usize, Refusal> {
    answered(answer, |refusal, number| match refusal {
        9 => bad_header(vgm).map(Refusal::BadHeader),
        10 => command_fault(vgm, number).map(|fault| Refusal::WrongCommand { place: number, fault }),
        11 => Some(Refusal::VgmTooLong),
        _ => None,
    })
}

/// An answer taken apart, with what its kind of entry knows of a refusal and its number.
fn answered(answer: u64, known: impl Fn(u64, usize) -> Option<Refusal>) -> Result<usize, Refusal> {
    let (refusal, number) = (answer >> 48, answer & 0xFFFF_FFFF_FFFF);
    let why = match refusal {
        0 => return Ok(number as usize),
        6 => Some(Refusal::NoRoom { needed: number as usize }),
        0xFFFF => Some(Refusal::BadMemory),
        _ => known(refusal, number as usize),
    };
    Err(why.unwrap_or(Refusal::Unknown { refusal, number }))
}

fn bad_start(log: &[u8]) -> Option<BadStart> {
    match *log {
        [] | [_] => Some(BadStart::TooShort),
        [version, ..] if !(1..=2).contains(&version) => Some(BadStart::Version),
        [_, start, ..] if start > 3 => Some(BadStart::Start),
        _ => None,
    }
}

/// The fault of the record at a place, and the place of its first offending byte.
fn fault_at(log: &[u8], record: usize) -> Option<(usize, Fault)> {
    let (high, low) = match *log.get(record..)? {
        [] => return None,
        [_] => return Some((record, Fault::LengthCut)),
        [high, low, ..] => (high, low),
    };
    let body = &log[record + 2..];
    let Some(body) = body.get(..usize::from(u16::from_be_bytes([high, low]))) else { return Some((log.len(), Fault::BodyCut)) };
    body_fault(log[0], body).map(|(offset, fault)| (record + offset, fault))
}

// The fault of a whole body in a log of a version, and how far from the record's first length byte it is.
fn body_fault(version: u8, body: &[u8]) -> Option<(usize, Fault)> {
    let Some(&kind) = body.first() else { return Some((0, Fault::Empty)) };
    // in version 2 a phase stands between divider and count
    let count = if version == 2 { 4 } else { 3 };
    let Some(&length) = [4, 3, count + 2, 1].get(usize::from(kind).wrapping_sub(1)) else { return Some((2, Fault::Kind)) };
    if body.len() != length {
        return Some((0, Fault::Length));
    }
    let word = |at: usize| u16::from_be_bytes([body[at], body[at + 1]]);
    match kind {
        1 | 2 if !(0xFF10..=0xFF3F).contains(&word(1)) => Some((3, Fault::Address)),
        3 if body[1] > 1 => Some((3, Fault::Speed)),
        3 if version == 2 && body[3] > 63 => Some((5, Fault::Phase)),
        3 if !(1..=16_384).contains(&word(count)) => Some((2 + count, Fault::Count)),
        _ => None,
    }
}

#[cfg(test)]
mod tests {
    use crate::{bytes_needed, render, BadStart, Fault, Refusal};

    fn fault(log: &[u8]) -> (usize, usize, Fault) {
        match bytes_needed(log) {
            Err(Refusal::WrongRecord { record, place, fault }) => (record, place, fault),
            other => panic!("{log:02X?} gave {other:?}"),
        }
    }

    #[test]
    fn each_fault_at_its_place() {
        assert_eq!(fault(&[1, 1, 0]), (2, 2, Fault::LengthCut));
        assert_eq!(fault(&[1, 1, 0, 1, 4, 0]), (5, 5, Fault::LengthCut));
        assert_eq!(fault(&[1, 1, 0, 9, 9, 0xFF]), (2, 6, Fault::BodyCut));
        assert_eq!(fault(&[1, 1, 0, 1]), (2, 4, Fault::BodyCut));
        assert_eq!(fault(&[1, 1, 0, 0]), (2, 2, Fault::Empty));
        assert_eq!(fault(&[1, 1, 0, 1, 9]), (2, 4, Fault::Kind));
        assert_eq!(fault(&[1, 1, 0, 1, 0]), (2, 4, Fault::Kind));
        assert_eq!(fault(&[1, 1, 0, 3, 1, 0xFF, 0x10]), (2, 2, Fault::Length));
        assert_eq!(fault(&[1, 1, 0, 6, 3, 0, 0, 0, 0, 1]), (2, 2, Fault::Length));
        assert_eq!(fault(&[1, 1, 0, 3, 2, 0xFF, 0x40]), (2, 5, Fault::Address));
        assert_eq!(fault(&[1, 1, 0, 4, 1, 0xFF, 0x0F, 0]), (2, 5, Fault::Address));
        assert_eq!(fault(&[1, 1, 0, 5, 3, 2, 0, 0, 0]), (2, 5, Fault::Speed));
        assert_eq!(fault(&[1, 1, 0, 5, 3, 0, 0, 0, 0]), (2, 7, Fault::Count));
        assert_eq!(fault(&[1, 1, 0, 1, 4, 0, 5, 3, 1, 0, 0x40, 1]), (5, 10, Fault::Count));
    }

    #[test]
    fn each_fault_of_version_2() {
        assert_eq!(fault(&[2, 1, 0, 5, 3, 0, 0, 0, 1]), (2, 2, Fault::Length));
        assert_eq!(fault(&[2, 1, 0, 7, 3, 0, 0, 0, 0, 1, 0]), (2, 2, Fault::Length));
        assert_eq!(fault(&[2, 1, 0, 6, 3, 2, 0, 64, 0, 0]), (2, 5, Fault::Speed));
        assert_eq!(fault(&[2, 1, 0, 6, 3, 1, 0, 64, 0, 0]), (2, 7, Fault::Phase));
        assert_eq!(fault(&[2, 1, 0, 6, 3, 0, 0, 255, 0, 1]), (2, 7, Fault::Phase));
        assert_eq!(fault(&[2, 1, 0, 6, 3, 0, 0, 63, 0, 0]), (2, 8, Fault::Count));
        assert_eq!(fault(&[2, 1, 0, 1, 4, 0, 6, 3, 1, 0, 0, 0x40, 1]), (5, 11, Fault::Count));
        assert_eq!(fault(&[2, 1, 0, 3, 2, 0xFF, 0x40]), (2, 5, Fault::Address));
        assert_eq!(fault(&[2, 1, 0, 6, 3, 0, 0, 63, 0]), (2, 9, Fault::BodyCut));
    }

    #[test]
    fn the_divider_runs_in_version_2() {
        // power on, pulse 2 with a length of 1, so many calls from divider 00 and phase 3F, a read of FF26: with call 1,986 the sequencer ends the sound
        let read = |calls: u16| {
            let [high, low] = calls.to_be_bytes();
            let mut log = vec![2, 1, 0, 4, 1, 0xFF, 0x26, 0x80, 0, 4, 1, 0xFF, 0x16, 0x3F, 0, 4, 1, 0xFF, 0x17, 0xF0, 0, 4, 1, 0xFF, 0x19, 0xC0];
            log.extend([0, 6, 3, 0, 0, 0x3F, high, low, 0, 3, 2, 0xFF, 0x26]);
            crate::render_to_vec(&log).expect("a right log").bytes().last().copied()
        };
        assert_eq!((read(1985), read(1986)), (Some(0xF2), Some(0xF0)));
    }

    #[test]
    fn each_refusal_in_words() {
        let said = |log: &[u8]| bytes_needed(log).unwrap_err().to_string();
        assert_eq!(said(&vec![1; 65_537]), "the log is longer than 65,536 bytes");
        assert_eq!(said(&[1]), BadStart::TooShort.to_string());
        assert_eq!(said(&[3, 1]), "byte 0: the log's version is neither 1 nor 2");
        assert_eq!(said(&[0, 1]), BadStart::Version.to_string());
        assert_eq!(said(&[1, 4]), "byte 1: the log's start byte is above 3");
        assert_eq!(said(&[1, 1, 0, 5, 3, 0, 0, 0, 0]), "byte 7: the record's count is 0 or above 16,384");
        assert_eq!(said(&[2, 1, 0, 6, 3, 0, 0, 64, 0, 1]), "byte 7: the record's phase is above 63");
        let log = [1, 1, 0, 3, 2, 0xFF, 0x26];
        assert_eq!(render(&log, &mut [0]).unwrap_err().to_string(), "the output is shorter than the 2 bytes needed");
        assert_eq!(bytes_needed(&log), Ok(2));
        assert_eq!(bytes_needed(&[1, 1]), Ok(0));
        assert_eq!(bytes_needed(&[2, 1]), Ok(0));
    }

    #[test]
    fn numbers_of_another_library() {
        for good in [[1, 1], [2, 1]] {
            for (refusal, number) in [(1, 0), (4, 0), (5, 2), (5, 900), (9, 0), (10, 2), (11, 0), (12, 3)] {
                assert_eq!(super::judge(refusal << 48 | number, &good), Err(Refusal::Unknown { refusal, number }));
            }
            assert_eq!(super::judge(0xFFFF << 48, &good), Err(Refusal::BadMemory));
        }
    }
}
