//! The access log as documents 01 and 02 have it: its records, written to bytes and read back, with the refusals of the table. Written from the documents alone.
use std::fmt;

#[derive(Clone, Copy, Debug, PartialEq, Eq)]
pub enum Record {
    Write { addr: u16, value: u8 },
    Read { addr: u16 },
    /// The phase is version 2's; without one, in version 1, the divider stands still.
    Clock { double: bool, divider: u8, phase: Option<u8>, count: u16 },
    Pcm,
}

impl Record {
    pub fn put(&self, log: &mut Vec<u8>) {
        match *self {
            Record::Write { addr, value } => log.extend([0, 4, 1, (addr >> 8) as u8, addr as u8, value]),
            Record::Read { addr } => log.extend([0, 3, 2, (addr >> 8) as u8, addr as u8]),
            Record::Clock { double, divider, phase, count } => {
                log.extend([0, if phase.is_some() { 6 } else { 5 }, 3, u8::from(double), divider]);
                log.extend(phase);
                log.extend(count.to_be_bytes());
            }
            Record::Pcm => log.extend([0, 1, 4]),
        }
    }
}

impl fmt::Display for Record {
    fn fmt(&self, f: &mut fmt::Formatter) -> fmt::Result {
        match self {
            Record::Write { addr, value } => write!(f, "write {addr:04X} {value:02X}"),
            Record::Read { addr } => write!(f, "read {addr:04X}"),
            Record::Clock { double, divider, phase, count } => {
                write!(f, "clock {} divider {divider:02X}", if *double { "double" } else { "normal" })?;
                phase.map_or(Ok(()), |phase| write!(f, " phase {phase:02X}"))?;
                write!(f, " count {count}")
            }
            Record::Pcm => write!(f, "pcm"),
        }
    }
}

/// The divider in call i from 0 of a clock record: the byte plus (phase + i)/64 rounded down, modulo 256, at either speed; in version 1 the byte in every call.
pub fn divider_at(byte: u8, phase: Option<u8>, i: u16) -> u8 {
    match phase {
        None => byte,
        Some(phase) => ((u32::from(byte) + (u32::from(phase) + u32::from(i)) / 64) % 256) as u8,
    }
}

/// A log that is not refused.
pub struct Log {
    pub version: u8,
    pub start: u8,
    pub records: Vec<Record>,
}

impl Log {
    /// The bytes of a log of this version and start, with other records.
    pub fn with(&self, records: &[Record]) -> Vec<u8> {
        bytes(self.version, self.start, records)
    }
}

/// A whole log's bytes. Every clock record must be of its version.
pub fn bytes(version: u8, start: u8, records: &[Record]) -> Vec<u8> {
    let mut log = vec![version, start];
    for record in records {
        let its_own = !matches!(record, Record::Clock { phase, .. } if phase.is_some() != (version == 2));
        assert!(its_own, "{record} in a log of version {version}");
        record.put(&mut log);
    }
    log
}

/// A refusal's number in the table, and the number returned.
#[derive(Clone, Copy, Debug, PartialEq, Eq)]
pub struct Refused(pub u64, pub u64);

fn judge(version: u8, body: &[u8]) -> Option<Record> {
    let sound = |high: u8, low: u8| Some(u16::from_be_bytes([high, low])).filter(|addr| (0xFF10..=0xFF3F).contains(addr));
    let calls = |high: u8, low: u8| Some(u16::from_be_bytes([high, low])).filter(|count| (1..=16384).contains(count));
    match (version, body) {
        (_, &[1, high, low, value]) => Some(Record::Write { addr: sound(high, low)?, value }),
        (_, &[2, high, low]) => Some(Record::Read { addr: sound(high, low)? }),
        (1, &[3, speed @ 0..=1, divider, high, low]) => Some(Record::Clock { double: speed == 1, divider, phase: None, count: calls(high, low)? }),
        (2, &[3, speed @ 0..=1, divider, phase @ 0..=63, high, low]) => {
            Some(Record::Clock { double: speed == 1, divider, phase: Some(phase), count: calls(high, low)? })
        }
        (_, [4]) => Some(Record::Pcm),
        _ => None,
    }
}

/// The log, or refusal 3, 4 or 5.
pub fn parse(log: &[u8]) -> Result<Log, Refused> {
    if log.len() > 65536 {
        return Err(Refused(3, 0));
    }
    let [version @ 1..=2, start @ 0..=3, ..] = *log else { return Err(Refused(4, 0)) };
    let (mut records, mut at) = (Vec::new(), 2);
    while at < log.len() {
        let wrong = Refused(5, at as u64);
        let [high, low] = *log.get(at..at + 2).ok_or(wrong)? else { return Err(wrong) };
        let to = at + 2 + usize::from(u16::from_be_bytes([high, low]));
        records.push(judge(version, log.get(at + 2..to).ok_or(wrong)?).ok_or(wrong)?);
        at = to;
    }
    Ok(Log { version, start, records })
}

/// The place of a wrong record's first offending byte, as request 2026-06 of document 02 has it; the crate besticoro says it in its words.
pub fn offending(log: &[u8], record: usize) -> usize {
    let [high, low, ref rest @ ..] = log[record..] else { return record };
    let Some(body) = rest.get(..usize::from(u16::from_be_bytes([high, low]))) else { return log.len() };
    let whole_clock = matches!((log[0], body), (1, [3, _, _, _, _]) | (2, [3, _, _, _, _, _]));
    match *body {
        [1, _, _, _] | [2, _, _] => record + 3,
        [3, 2..=255, ..] if whole_clock => record + 3,
        // version 1's count, or version 2's phase
        [3, _, _, _, _] | [3, _, _, 64..=255, _, _] if whole_clock => record + 5,
        [3, ..] if whole_clock => record + 6,
        [] | [1..=4, ..] => record,
        _ => record + 2,
    }
}
