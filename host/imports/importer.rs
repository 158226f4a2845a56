//! A second importer of VGM files, written from request 2026-05 of document 02, the public specification of VGM, and what document 01 and request 2026-02 say
//! of logs, alone. It is to be read beside their sentences, which it quotes, and is not made fast.

/// What an import comes to where there is room enough.
#[derive(Clone, Debug, PartialEq, Eq)]
pub enum Answer {
    /// The log's bytes; beside them the samples of all its waits.
    Log { bytes: Vec<u8>, samples: u128 },
    /// "9, header wrong (0)"
    HeaderWrong,
    /// "10, command not taken, cut short or no end (its place; with no end, the file's length)"
    CommandWrong { place: usize },
    /// "11, log would pass 65,536 bytes (0)"
    TooLong,
}

/// "Take commands B3 with registers 00 to 2F (FF10 up), waits 61, 62, 63 and 70 to 7F, and end 66."
enum Command {
    Write { address: u16, data: u8 },
    Wait { samples: u128 },
    End,
}

/// "The clock count up to sample s is s times 262144/11025 rounded down."
pub fn clock_count(s: u128) -> u128 {
    s * 262144 / 11025
}

/// A number of four bytes, little-endian as all numbers of a VGM file.
fn four_bytes(file: &[u8], at: usize) -> u64 {
    u64::from(file[at]) + 0x100 * u64::from(file[at + 1]) + 0x1_0000 * u64::from(file[at + 2]) + 0x100_0000 * u64::from(file[at + 3])
}

/// Where the data starts; nothing where the header is wrong.
fn data_start(file: &[u8]) -> Option<usize> {
    // "The header is wrong exactly if one of these fails or the file is shorter than hex 84."
    if file.len() < 0x84 {
        return None;
    }
    // "the mark", and "version 1.61 or later": digits in hex, at hex 08
    let mark = file[0..4] == *b"Vgm ";
    let version = four_bytes(file, 0x08) >= 0x161;
    // "the data offset at hex 34 counted from there"
    let start = 0x34 + four_bytes(file, 0x34);
    // "Game Boy clock at hex 80 equal to 4,194,304"
    let clock = four_bytes(file, 0x80) == 4_194_304;
    // "data starting at hex 84 or later and not past the file's end"
    let inside = start >= 0x84 && start <= file.len() as u64;
    (mark && version && clock && inside).then_some(start as usize)
}

/// The command at a place and the place after it; nothing where there is none that is taken, or it is cut short.
fn command_at(file: &[u8], at: usize) -> Option<(Command, usize)> {
    match file[at..] {
        [0xB3, register @ 0x00..=0x2F, data, ..] => Some((Command::Write { address: 0xFF10 + u16::from(register), data }, at + 3)),
        [0x61, low, high, ..] => Some((Command::Wait { samples: u128::from(low) + 0x100 * u128::from(high) }, at + 3)),
        [0x62, ..] => Some((Command::Wait { samples: 735 }, at + 1)),
        [0x63, ..] => Some((Command::Wait { samples: 882 }, at + 1)),
        [byte @ 0x70..=0x7F, ..] => Some((Command::Wait { samples: u128::from(byte - 0x70) + 1 }, at + 1)),
        [0x66, ..] => Some((Command::End, at + 1)),
        _ => None,
    }
}

/// A log under way, the samples waited so far, and the calls of its clock records so far.
struct Log {
    bytes: Vec<u8>,
    samples: u128,
    calls: u128,
}

impl Log {
    /// "Write a version 2 log, normal speed, start byte 1, an FF26 write of 80 first."
    fn new() -> Log {
        let mut log = Log { bytes: vec![2, 1], samples: 0, calls: 0 };
        log.write(0xFF26, 0x80);
        log
    }

    /// Document 01: two length bytes, and the body "01 address data (4 bytes)".
    fn write(&mut self, address: u16, data: u8) {
        self.bytes.extend([0, 4, 0x01, (address / 256) as u8, (address % 256) as u8, data]);
    }

    /// The body 03, speed, divider, phase, count (6 bytes). "Divider and phase start at 0 and run through": a call moves the phase by 1, 64 the divider.
    fn clock(&mut self, count: u128) {
        let (divider, phase) = (self.calls / 64 % 256, self.calls % 64);
        self.bytes.extend([0, 6, 0x03, 0, divider as u8, phase as u8, (count / 256) as u8, (count % 256) as u8]);
        self.calls += count;
    }

    /// "Each wait becomes records of 16,384 calls and one for the rest, if any."
    fn wait(&mut self, samples: u128) {
        let calls = clock_count(self.samples + samples) - clock_count(self.samples);
        for _ in 0..calls / 16384 {
            self.clock(16384);
        }
        if calls % 16384 > 0 {
            self.clock(calls % 16384);
        }
        self.samples += samples;
    }
}

/// "Refusals, in this order": 9, 10, 11. All commands up to the end are judged before the log's length is.
pub fn import(file: &[u8]) -> Answer {
    let Some(mut at) = data_start(file) else { return Answer::HeaderWrong };
    let mut log = Log::new();
    loop {
        // with no end this comes to the file's length, where there is no command
        let Some((command, next)) = command_at(file, at) else { return Answer::CommandWrong { place: at } };
        // "The register order is kept; loop offset, tags and what follows the end are passed over."
        match command {
            Command::Write { address, data } => log.write(address, data),
            Command::Wait { samples } => log.wait(samples),
            Command::End => break,
        }
        at = next;
    }
    if log.bytes.len() > 65536 {
        return Answer::TooLong;
    }
    Answer::Log { bytes: log.bytes, samples: log.samples }
}
