//! Writes what the original answers to a sample of logs, for the program crates/replay.
use crate::compare::digest;
use crate::generate;
use crate::log::Record;
use crate::original::{self, Answer};
use std::io::Write;
use std::path::Path;

/// An output longer than this is recorded by its digest.
const SHORT: usize = 300;

/// A head of 24 bytes: kind, refusal, the log's length in two, then in four each the number returned, the output's length, frames, clock calls and records.
fn head(kind: u8, refusal: u64, length: usize, numbers: [u64; 5]) -> Vec<u8> {
    let mut head = vec![kind, refusal as u8];
    head.extend((length as u16).to_be_bytes());
    for number in numbers {
        head.extend((number as u32).to_be_bytes());
    }
    head
}

/// A case: its head, the log, then the bytes (kind 1) or their digest (kind 2). The output is exactly as long as the bytes, and for a refusal there is none.
fn put(file: &mut impl Write, log: &[u8]) -> std::io::Result<()> {
    let answer = match original::play(log) {
        Err(refused) => {
            file.write_all(&head(1, refused.0, log.len(), [refused.1, 0, 0, 0, 0]))?;
            return file.write_all(log);
        }
        Ok(answer) => answer,
    };
    let (needed, short) = (answer.bytes.len() as u64, answer.bytes.len() <= SHORT);
    let numbers = [needed, needed, answer.frames, answer.clocks, answer.records];
    file.write_all(&head(if short { 1 } else { 2 }, 0, log.len(), numbers))?;
    file.write_all(log)?;
    if short {
        file.write_all(&answer.bytes)
    } else {
        file.write_all(&digest(&answer.bytes).to_be_bytes())
    }
}

/// Kind 0 names a family.
fn name(file: &mut impl Write, name: &str) -> std::io::Result<()> {
    file.write_all(&head(0, 0, name.len(), [0; 5]))?;
    file.write_all(name.as_bytes())
}

/// Whether a log is small enough: its output fits the program's buffer, and its clocks an emulator's patience.
fn small(log: &[u8], clocks: u64) -> bool {
    log.len() <= 1500 && original::play(log).map_or(true, |answer| answer.bytes.len() <= 65536 && answer.clocks <= clocks)
}

/// The logs of a folder, then the first small logs of every family, so many of each.
pub fn record(file: &Path, folder: &Path, seed: u64) -> std::io::Result<()> {
    let mut out = std::io::BufWriter::new(std::fs::File::create(file)?);
    name(&mut out, "documented")?;
    let mut paths: Vec<_> = std::fs::read_dir(folder)?.map(|entry| Ok(entry?.path())).collect::<std::io::Result<_>>()?;
    paths.sort();
    for path in paths {
        put(&mut out, &std::fs::read(path)?)?;
    }
    for (number, (family, _)) in generate::FAMILIES.iter().enumerate() {
        name(&mut out, family)?;
        let long = matches!(*family, "long runs" | "faint residue" | "silences");
        let (many, clocks) = if long { (2, 900_000) } else { (18, 8_000) };
        let logs = (0..).map(|index| generate::make(number, seed, index)).filter(|log| long || small(log, clocks));
        for log in logs.take(many) {
            put(&mut out, &shorten(log, clocks))?;
        }
    }
    name(&mut out, "every register and byte")?;
    for index in (0..generate::REGISTER_LOGS).step_by(generate::REGISTER_LOGS as usize / 16 - 13) {
        put(&mut out, &generate::register_log(index))?;
    }
    name(&mut out, "every body of one record")?;
    for index in (0..generate::BODY_LOGS).filter(|index| index % 4096 == 0x0F40 || index % 65536 == 0xFF3F || index % 65536 == 0xFF40 || (133500..133512).contains(index)) {
        put(&mut out, &generate::body_log(index))?;
    }
    record_2(&mut out, seed)?;
    out.flush()
}

/// The same of version 2, behind all that was recorded before it. What the sequencer does shows in longer logs.
fn record_2(out: &mut impl Write, seed: u64) -> std::io::Result<()> {
    for (number, (family, _)) in generate::FAMILIES_2.iter().enumerate() {
        name(out, family)?;
        let long = *family == "version 2, sequencer";
        let logs = (0..).map(|index| generate::make_2(number, seed, index)).filter(|log| long || small(log, 8_000));
        for log in logs.take(if long { 6 } else { 18 }) {
            put(out, &shorten(log, 36_000))?;
        }
    }
    name(out, "version 2, every byte and phase")?;
    // by a step that comes to every count with both speeds, half-clocks and bits
    for index in (0..generate::PHASE_LOGS).step_by(generate::PHASE_LOGS as usize / 64 + 29) {
        put(out, &generate::phase_log(index))?;
    }
    name(out, "version 2, every body of one record")?;
    let lengths = (0..9).map(|length| 131072 + 9 * 3 + length);
    let phases = (0..3).flat_map(|speed| [0, 62, 63, 64, 255].map(|phase| 133376 + 256 * speed + phase));
    let counts = (0..4).flat_map(|phase| [0, 1, 255, 256, 257].map(|count| 198912 + 512 * phase + count));
    for index in lengths.chain(phases).chain(counts) {
        put(out, &generate::body_log_2(index))?;
    }
    Ok(())
}

/// The first logs of every family, so many of each and none longer than a program prints in a moment, as files of a folder.
pub fn sample(folder: &Path, seed: u64, many: u64) -> std::io::Result<()> {
    let write = |family: &str, index: u64, log: Vec<u8>| std::fs::write(folder.join(format!("{}_{index}.log", family.replace(' ', "_"))), shorten(log, 36_000));
    for index in 0..many {
        for (number, (family, _)) in generate::FAMILIES.iter().enumerate() {
            write(family, index, generate::make(number, seed, index))?;
        }
        for (number, (family, _)) in generate::FAMILIES_2.iter().enumerate() {
            write(&family.replace(',', ""), index, generate::make_2(number, seed, index))?;
        }
    }
    Ok(())
}

/// The first whole logs of faint residue, so many, and what the original makes of them: N.log and N.bytes; its state then, N.image; and a log played on that,
/// N.later, with what it makes and the state after it, N.later_bytes and N.later_image.
pub fn residue(folder: &Path, seed: u64, many: u64) -> std::io::Result<()> {
    let number = generate::FAMILIES.iter().position(|(family, _)| *family == "faint residue").expect("a family of that name");
    let later = [Record::Pcm, Record::Clock { double: false, divider: 0, phase: None, count: 9000 }, Record::Read { addr: 0xFF26 }];
    for index in 0..many {
        let log = generate::make(number, seed, index);
        let parsed = crate::log::parse(&log).expect("no log of this family is refused");
        let (mut unit, mut first, mut second) = (original::make(parsed.start), Answer::default(), Answer::default());
        original::play_on(&mut unit, &parsed.records, &mut first);
        let image = original::image(&unit);
        original::play_on(&mut unit, &later, &mut second);
        let after = original::image(&unit);
        let files: [(&str, &[u8]); 6] = [
            ("log", &log),
            ("bytes", &first.bytes),
            ("image", &image),
            ("later", &parsed.with(&later)),
            ("later_bytes", &second.bytes),
            ("later_image", &after),
        ];
        for (kind, bytes) in files {
            std::fs::write(folder.join(format!("{index}.{kind}")), bytes)?;
        }
    }
    Ok(())
}

/// A log without the records past so many clocks or 1,500 frames.
fn shorten(log: Vec<u8>, clocks: u64) -> Vec<u8> {
    let Ok(mut parsed) = crate::log::parse(&log) else { return log };
    while original::play_records(parsed.start, &parsed.records).clocks > clocks.min(36_000) {
        parsed.records.pop();
    }
    parsed.with(&parsed.records)
}
