//! A file imported by both importers, its log played beside the original, and what differs.
use crate::entry::{self, done, refused, Lent, Told, LONGEST_PLACE};
use crate::generate::Play;
use crate::importer::{self, clock_count, Answer};
use crate::log::{self, Record};
use crate::straight;

/// The bytes of a frame in an output.
const FRAME: u64 = 41;

/// What was compared.
#[derive(Clone, Copy, Default)]
pub struct Sums {
    pub files: u64,
    pub imported: u64,
    /// 9, 10 and 11.
    pub refused: [u64; 3],
    pub calls: u64,
    pub bytes: u64,
    pub played: u64,
    pub clocks: u64,
    pub frames: u64,
}

impl Sums {
    pub fn add(&mut self, other: &Sums) {
        self.files += other.files;
        self.imported += other.imported;
        self.refused = [0, 1, 2].map(|at| self.refused[at] + other.refused[at]);
        self.calls += other.calls;
        self.bytes += other.bytes;
        self.played += other.played;
        self.clocks += other.clocks;
        self.frames += other.frames;
    }
}

fn expect<T: PartialEq + std::fmt::Debug>(what: &str, ours: T, theirs: T) -> Result<(), String> {
    if ours == theirs {
        Ok(())
    } else {
        Err(format!("{what}: {ours:?} by the entry, {theirs:?} wanted"))
    }
}

fn same_log(ours: &[u8], theirs: &[u8]) -> Result<(), String> {
    match (0..theirs.len()).find(|&at| ours[at] != theirs[at]) {
        None => Ok(()),
        Some(at) => {
            let to = (at + 8).min(theirs.len());
            Err(format!("the log from byte {at} on: {:02X?} by the entry, {:02X?} wanted", &ours[at..to], &theirs[at..to]))
        }
    }
}

/// A file that is refused: into places of several lengths, and nothing touched.
fn compare_refused(file: &[u8], wanted: Told, turn: u64, lent: &mut Lent) -> Result<u64, String> {
    let large = if turn % 16 == 0 { LONGEST_PLACE } else { 64 };
    for room in [0, 8, large] {
        expect(&format!("answer into {room} bytes"), lent.import(file, room, turn), wanted)?;
    }
    Ok(3)
}

/// A file that is imported: into a place exactly as long as the log, longer ones, one byte short, none, and one of any length below.
fn compare_log(file: &[u8], wanted: &[u8], turn: u64, lent: &mut Lent) -> Result<u64, String> {
    let needed = wanted.len();
    for room in [needed, needed + 1 + (turn % 97) as usize, LONGEST_PLACE.min(needed + 4096)] {
        expect(&format!("answer into {room} bytes"), lent.import(file, room, turn), done(needed))?;
        same_log(lent.log(needed), wanted)?;
    }
    for room in [needed - 1, 0, turn.wrapping_mul(7919) as usize % needed] {
        expect(&format!("answer into {room} bytes"), lent.import(file, room, turn), refused(6, needed))?;
    }
    Ok(6)
}

/// What an imported log is by the reader of logs: its clock calls are those up to the last sample, at normal speed from a divider that runs through.
fn compare_records(log: &[u8], samples: u128) -> Result<u64, String> {
    let read = log::parse(log).map_err(|refused| format!("the log is refused with {} {}", refused.0, refused.1))?;
    expect("version and start", (read.version, read.start), (2, 1))?;
    let mut calls = 0;
    for record in &read.records {
        if let Record::Clock { double, divider, phase, count } = *record {
            let wanted = (false, (calls / 64 % 256) as u8, Some((calls % 64) as u8));
            expect("speed, divider and phase of a record", (double, divider, phase), wanted)?;
            calls += u128::from(count);
        }
    }
    expect("calls of all records", calls, clock_count(samples))?;
    Ok(read.records.len() as u64)
}

/// The frames of so many samples: one less, or none.
fn frames_of(samples: u128) -> u64 {
    samples.saturating_sub(1) as u64
}

/// How many bytes a log's output needs, by the scan: its frames and nothing else.
fn compare_needed(log: &[u8], samples: u128) -> Result<(), String> {
    let bytes = FRAME * frames_of(samples);
    let wanted = if bytes == 0 { done(0) } else { refused(6, bytes as usize) };
    expect("bytes that the log's output needs", Told { answer: entry::play(log, &mut []), stayed: true }, wanted)
}

fn same_frames(ours: &[u8], theirs: &[u8]) -> Result<(), String> {
    if ours == theirs {
        return Ok(());
    }
    let pairs = besticoro::items(ours).zip(besticoro::items(theirs));
    Err(match pairs.clone().enumerate().find(|(_, (ours, theirs))| ours != theirs) {
        Some((at, (ours, theirs))) => format!("frame {at}:\n  {ours} by the imported log\n  {theirs} by the original, straight from the file"),
        None => format!("{} frames by the imported log, {} bytes by the original", pairs.count(), theirs.len()),
    })
}

/// An imported log played, beside the original that is driven straight from the file.
fn compare_play(file: &[u8], log: &[u8], records: u64, samples: u128, turn: u64) -> Result<Sums, String> {
    let theirs = straight::play(file);
    let (frames, clocks) = (frames_of(samples), clock_count(samples) as u64);
    expect("samples, frames and clock calls of the original", (u128::from(theirs.samples), theirs.frames, theirs.clocks), (samples, frames, clocks))?;
    let mut out = vec![0; theirs.bytes.len()];
    expect("answer and counts of the log played", entry::play_counted(log, &mut out), (FRAME * frames, [frames, clocks, records]))?;
    same_frames(&out, &theirs.bytes)?;
    if turn % 4 == 0 {
        out.fill(0);
        expect("answer without counts", entry::play(log, &mut out), FRAME * frames)?;
        same_frames(&out, &theirs.bytes)?;
    }
    Ok(Sums { played: 1, clocks, frames, ..Sums::default() })
}

/// Both sides of one file; its log is played where the turn has come and it is not too long.
pub fn compare(file: &[u8], turn: u64, play: Play, lent: &mut Lent) -> Result<Sums, String> {
    let refusal = |at: usize, wanted: Told, lent: &mut Lent| {
        let mut refused = [0; 3];
        refused[at] = 1;
        Ok(Sums { files: 1, refused, calls: compare_refused(file, wanted, turn, lent)?, ..Sums::default() })
    };
    match importer::import(file) {
        Answer::HeaderWrong => refusal(0, refused(9, 0), lent),
        Answer::CommandWrong { place } => refusal(1, refused(10, place), lent),
        Answer::TooLong => refusal(2, refused(11, 0), lent),
        Answer::Log { bytes, samples } => {
            let calls = compare_log(file, &bytes, turn, lent)?;
            let records = compare_records(&bytes, samples)?;
            compare_needed(&bytes, samples)?;
            let plays = turn % play.one_in == 0 && clock_count(samples) <= play.calls;
            let mut sums = if plays { compare_play(file, &bytes, records, samples, turn)? } else { Sums::default() };
            sums.add(&Sums { files: 1, imported: 1, calls, bytes: bytes.len() as u64, ..Sums::default() });
            Ok(sums)
        }
    }
}

/// A file cut down, ever shorter rows of bytes left out, as long as it still differs.
pub fn shrink(file: &[u8], turn: u64, play: Play) -> Vec<u8> {
    let mut lent = Lent::new();
    let mut differs = |file: &[u8]| compare(file, turn, play, &mut lent).is_err();
    let (mut file, mut step) = (file.to_vec(), file.len());
    while step > 0 {
        let mut at = 0;
        while at < file.len() {
            let fewer = [&file[..at], &file[(at + step).min(file.len())..]].concat();
            if differs(&fewer) {
                file = fewer;
            } else {
                at += step;
            }
        }
        step /= 2;
    }
    file
}
