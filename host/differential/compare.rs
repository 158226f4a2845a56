//! A case played by both, and what differs.
use crate::generate::Random;
use crate::image::{Image, IMAGE_BYTES};
use crate::log::{self, Log, Record, Refused};
use crate::original::{self, Answer};
use crate::port::{done, filled, refused, Lent, FILL, GUARD};
use besticoro::{items, Refusal};

/// What of a log is compared beside it.
#[derive(Clone, Copy, Default)]
pub enum Also {
    #[default]
    Nothing,
    /// The log cut between records, by a seed, into parts that are played through images; each of the log's version, or mixed, of one and the other by turns.
    Parts { seed: u64, mixed: bool },
    /// Each clock record cut in two, at every place.
    CutInTwo,
}

/// A log to play, on a fresh unit or on an image's.
#[derive(Clone, Default)]
pub struct Case {
    pub log: Vec<u8>,
    pub image: Option<Image>,
    pub also: Also,
}

/// What was compared.
#[derive(Clone, Copy, Default)]
pub struct Sums {
    pub logs: u64,
    pub refused: u64,
    pub records: u64,
    pub clocks: u64,
    pub frames: u64,
    pub bytes: u64,
    pub images: u64,
}

impl Sums {
    pub fn add(&mut self, other: &Sums) {
        self.logs += other.logs;
        self.refused += other.refused;
        self.records += other.records;
        self.clocks += other.clocks;
        self.frames += other.frames;
        self.bytes += other.bytes;
        self.images += other.images;
    }
}

// The table's numbers. What the crate does not know is nobody's answer.
fn number(refusal: Refusal) -> Refused {
    match refusal {
        Refusal::TooLong => Refused(3, 0),
        Refusal::BadStart(_) => Refused(4, 0),
        Refusal::WrongRecord { record, .. } => Refused(5, record as u64),
        Refusal::NoRoom { needed } => Refused(6, needed as u64),
        Refusal::WrongImage => Refused(7, 0),
        Refusal::NoRoomForImage { needed } => Refused(8, needed as u64),
        Refusal::BadHeader(_) => Refused(9, 0),
        Refusal::WrongCommand { place, .. } => Refused(10, place as u64),
        Refusal::VgmTooLong => Refused(11, 0),
        Refusal::BadMemory => Refused(0xFFFF, 0),
        Refusal::Unknown { .. } => Refused(u64::MAX, u64::MAX),
    }
}

/// What playing a log came to, in numbers.
#[derive(Clone, Copy, Debug, PartialEq, Eq)]
struct Played {
    written: usize,
    frames: u64,
    clocks: u64,
    records: u64,
}

/// Plays into an output of so many bytes: the answer, the bytes written, and whether every other byte stayed, within the output and past it.
fn played(log: &[u8], room: usize, space: &mut Vec<u8>) -> (Result<Played, Refused>, bool) {
    space.clear();
    space.resize(room + GUARD, FILL);
    let rendered = besticoro::render(log, &mut space[..room]);
    let answer = rendered.map(|r| Played { written: r.bytes().len(), frames: r.frames_made(), clocks: r.clock_calls(), records: r.records() }).map_err(number);
    let written = answer.map_or(0, |done| done.written);
    (answer, written <= room && filled(&space[written.min(room)..]))
}

fn expect<T: PartialEq + std::fmt::Debug>(what: &str, ours: T, theirs: T) -> Result<(), String> {
    if ours == theirs {
        Ok(())
    } else {
        Err(format!("{what}: {ours:?} here, {theirs:?} by the original"))
    }
}

fn same_items(ours: &[u8], theirs: &[u8]) -> Result<(), String> {
    if ours == theirs {
        return Ok(());
    }
    let pairs = items(ours).zip(items(theirs));
    Err(match pairs.clone().enumerate().find(|(_, (ours, theirs))| ours != theirs) {
        Some((at, (ours, theirs))) => format!("item {at}:\n  {ours} here\n  {theirs} by the original"),
        None => format!("only {} items here", pairs.count()),
    })
}

fn same_image(what: &str, ours: &[u8], theirs: &Image) -> Result<(), String> {
    match (0..IMAGE_BYTES).find(|&at| ours[at] != theirs[at]) {
        None => Ok(()),
        Some(at) => Err(format!("{what}, byte {at}: {:02X} here, {:02X} by the original", ours[at], theirs[at])),
    }
}

// The start byte of a log, or 0.
fn start_of(log: &[u8]) -> u8 {
    log.get(1).copied().unwrap_or(0)
}

/// The image that a case begins with. A fresh one is made by the port and compared with the original's; places of other lengths by turns.
fn first_image(case: &Case, turn: u64, lent: &mut Lent) -> Result<Image, String> {
    let start = start_of(&case.log);
    let fresh = lent.fresh[usize::from(start) % 4];
    let lengths = [IMAGE_BYTES, [0, IMAGE_BYTES - 1, IMAGE_BYTES + 1, 2 * IMAGE_BYTES][turn as usize % 4]];
    for place in lengths {
        let wanted = match (start, place) {
            (4..=255, _) => refused(4, 0),
            (_, 0..IMAGE_BYTES) => refused(8, IMAGE_BYTES),
            _ => done(IMAGE_BYTES),
        };
        expect("answer to a start byte", lent.make(start, place), wanted)?;
        if wanted == done(IMAGE_BYTES) {
            same_image("the image of a fresh unit", lent.image_after(), &fresh)?;
        }
    }
    Ok(case.image.unwrap_or(fresh))
}

/// An image spoilt, by turns: cut, grown, or another version.
fn spoilt(image: &Image, turn: u64) -> Vec<u8> {
    let mut spoilt = image.to_vec();
    match turn % 5 {
        0 => spoilt.clear(),
        1 => spoilt.truncate(IMAGE_BYTES - 1),
        2 => spoilt.push(0),
        3 => spoilt.extend(image),
        _ => spoilt[0] = 2,
    }
    spoilt
}

/// A log that is refused: with its refusal on a fresh unit and on an image, and nothing touched; on a spoilt image with 7.
fn compare_refused(case: &Case, theirs: Refused, turn: u64, image: &Image, lent: &mut Lent) -> Result<Sums, String> {
    if case.image.is_none() {
        expect("answer and untouched", played(&case.log, 64, &mut lent.out), (Err(theirs), true))?;
        if let Err(Refusal::WrongRecord { record, place, .. }) = besticoro::bytes_needed(&case.log) {
            expect("place of the offending byte, for the original by log.rs", place, log::offending(&case.log, record))?;
        }
    }
    let place = [0, IMAGE_BYTES - 1, IMAGE_BYTES, IMAGE_BYTES + 1][turn as usize / 4 % 4];
    let (room, counted) = ([0, 64][turn as usize % 2], turn % 3 > 0);
    expect("answer on an image", lent.play(image, &case.log, room, place, counted), refused(theirs.0, theirs.1 as usize))?;
    expect("answer on a wrong image", lent.play(&spoilt(image, turn), &case.log, room, place, counted), refused(7, 0))?;
    Ok(Sums { logs: 1, refused: 1, images: u64::from(start_of(&case.log) <= 3), ..Sums::default() })
}

/// A log that is played, on a fresh unit's own entry: answer and bytes; at edges also with longer and shorter outputs.
fn compare_fresh(log: &[u8], answer: &Answer, edges: bool, space: &mut Vec<u8>) -> Result<(), String> {
    let needed = answer.bytes.len();
    let theirs = Played { written: needed, frames: answer.frames, clocks: answer.clocks, records: answer.records };
    for room in [needed, needed + 7].into_iter().take(1 + usize::from(edges)) {
        expect("answer and untouched past the output", played(log, room, space), (Ok(theirs), true))?;
        same_items(&space[..needed], &answer.bytes)?;
    }
    if edges && needed > 0 {
        expect("answer and untouched one byte short", played(log, needed - 1, space), (Err(Refused(6, needed as u64)), true))?;
    }
    Ok(())
}

/// The same on an image: answer, bytes, counts and the image after it.
fn compare_from(case: &Case, image: &Image, answer: &Answer, after: &Image, turn: u64, lent: &mut Lent) -> Result<(), String> {
    let (needed, place) = (answer.bytes.len(), IMAGE_BYTES + (turn % 2) as usize);
    expect("answer on an image, and untouched", lent.play(image, &case.log, needed, place, true), done(needed))?;
    expect("counts on an image", &lent.counts[..3], &[answer.frames, answer.clocks, answer.records])?;
    same_items(&lent.out[..needed], &answer.bytes)?;
    same_image("the image after", lent.image_after(), after)
}

/// At edges: the plain entry, an output one byte short, a place too short, a wrong image; each in front of the refusals that come after it.
fn compare_edges(case: &Case, image: &Image, answer: &Answer, after: &Image, turn: u64, lent: &mut Lent) -> Result<(), String> {
    let (log, needed, counted) = (&case.log, answer.bytes.len(), turn % 3 > 0);
    expect("answer of the plain entry", lent.play(image, log, needed + 7, IMAGE_BYTES, false), done(needed))?;
    same_items(&lent.out[..needed], &answer.bytes)?;
    same_image("the image after, by the plain entry", lent.image_after(), after)?;
    let short = [0, IMAGE_BYTES - 1][turn as usize / 4 % 2];
    expect("answer without room for the image", lent.play(image, log, needed, short, counted), refused(8, IMAGE_BYTES))?;
    if needed > 0 {
        let place = [short, IMAGE_BYTES][turn as usize / 8 % 2];
        expect("answer one byte short on an image", lent.play(image, log, needed - 1, place, counted), refused(6, needed))?;
    }
    let (room, place) = ([0, needed][turn as usize / 4 % 2], [short, IMAGE_BYTES][turn as usize / 16 % 2]);
    expect("answer on a wrong image", lent.play(&spoilt(image, turn / 4), log, room, place, counted), refused(7, 0))
}

/// Where so many records are cut: into 2 to 6 parts, some of them perhaps empty.
fn cut(records: usize, seed: u64) -> Vec<usize> {
    let mut random = Random::new(seed, 0, 0);
    let mut ends: Vec<usize> = (0..1 + random.below(5)).map(|_| random.below(records as u64 + 1) as usize).collect();
    ends.push(records);
    ends.sort();
    ends
}

/// The records of a version: in version 2 with any phases, in version 1 without them.
fn in_version(version: u8, records: &[Record], random: &mut Random) -> Vec<Record> {
    let phase = |random: &mut Random| (version == 2).then(|| random.below(64) as u8);
    let other = |record: &Record| match *record {
        Record::Clock { double, divider, count, .. } => Record::Clock { double, divider, phase: phase(random), count },
        other => other,
    };
    records.iter().map(other).collect()
}

/// The parts of a log, each a log of its own.
fn parts_of(log: &Log, seed: u64, mixed: bool) -> Vec<Log> {
    let (mut random, mut from) = (Random::new(seed, 0, 1), 0);
    let part = |(number, to): (usize, usize)| {
        let records = &log.records[std::mem::replace(&mut from, to)..to];
        let version = if mixed { 1 + ((seed >> 8) as u8).wrapping_add(number as u8) % 2 } else { log.version };
        let records = if mixed { in_version(version, records, &mut random) } else { records.to_vec() };
        Log { version, start: (seed % 4) as u8, records }
    };
    cut(log.records.len(), seed).into_iter().enumerate().map(part).collect()
}

/// What the original makes of logs one after the other, on the unit of an image.
fn played_in_a_row(parts: &[Log], image: &Image) -> Answer {
    let (mut unit, mut answer) = (original::take_up(image), Answer::default());
    parts.iter().for_each(|part| original::play_on(&mut unit, &part.records, &mut answer));
    answer
}

/// Logs through images: outputs joined, counts added, and every image. Gives how many images were compared.
fn compare_parts(parts: &[Log], image: &Image, answer: &Answer, lent: &mut Lent) -> Result<u64, String> {
    let (mut unit, mut now) = (original::take_up(image), *image);
    let (mut joined, mut counts) = (Vec::new(), [0; 3]);
    for part in parts {
        let mut theirs = Answer::default();
        original::play_on(&mut unit, &part.records, &mut theirs);
        let needed = theirs.bytes.len();
        expect("answer to a part, and untouched", lent.play(&now, &part.with(&part.records), needed, IMAGE_BYTES, true), done(needed))?;
        same_image("the image after a part", lent.image_after(), &original::image(&unit))?;
        joined.extend(&lent.out[..needed]);
        counts = [0, 1, 2].map(|at| counts[at] + lent.counts[at]);
        now.copy_from_slice(lent.image_after());
    }
    same_items(&joined, &answer.bytes)?;
    expect("counts of all parts", counts, [answer.frames, answer.clocks, answer.records])?;
    Ok(parts.len() as u64)
}

/// Another log that must come to the same on the same image, but for the number of its records.
fn compare_twin(twin: &[u8], image: &Image, answer: &Answer, after: &Image, lent: &mut Lent) -> Result<(), String> {
    let needed = answer.bytes.len();
    expect("answer to a twin, and untouched", lent.play(image, twin, needed, IMAGE_BYTES, true), done(needed))?;
    expect("counts of a twin", &lent.counts[..2], &[answer.frames, answer.clocks])?;
    same_items(&lent.out[..needed], &answer.bytes)?;
    same_image("the image after a twin", lent.image_after(), after)
}

/// A clock record's calls up to one, and those from it on: what the divider has come to is the second record's byte and phase.
fn cut_in_two(record: Record, k: u16) -> [Record; 2] {
    let Record::Clock { double, divider, phase, count } = record else { panic!("{record} is no clock record") };
    let come_to = phase.map(|phase| u16::from(phase) + k);
    let byte = divider.wrapping_add((come_to.unwrap_or(0) / 64) as u8);
    [(divider, phase, k), (byte, come_to.map(|at| (at % 64) as u8), count - k)].map(|(divider, phase, count)| Record::Clock { double, divider, phase, count })
}

/// The log with each of its clock records cut in two, at every place.
fn compare_cut_in_two(log: &Log, image: &Image, answer: &Answer, after: &Image, lent: &mut Lent) -> Result<u64, String> {
    let mut twins = 0;
    for (at, &record) in log.records.iter().enumerate() {
        let Record::Clock { count, .. } = record else { continue };
        for k in 1..count {
            let records = [&log.records[..at], &cut_in_two(record, k), &log.records[at + 1..]].concat();
            compare_twin(&log.with(&records), image, answer, after, lent).map_err(|what| format!("{record}, cut at {k}: {what}"))?;
            twins += 1;
        }
    }
    Ok(twins)
}

/// A log of version 2 in whose records no divider moves comes to what it is in version 1, without the phases.
fn compare_standing(log: &Log, image: &Image, answer: &Answer, after: &Image, lent: &mut Lent) -> Result<u64, String> {
    let stands = |record: &Record| !matches!(*record, Record::Clock { phase: Some(phase), count, .. } if u16::from(phase) + count > 64);
    if log.version == 1 || !log.records.iter().all(stands) {
        return Ok(0);
    }
    let records = in_version(1, &log.records, &mut Random::new(0, 0, 0));
    compare_twin(&log::bytes(1, log.start, &records), image, answer, after, lent).map_err(|what| format!("in version 1: {what}"))?;
    Ok(1)
}

/// What else there is to compare of a case; gives how many images were compared.
fn compare_also(also: Also, log: &Log, image: &Image, answer: &Answer, after: &Image, lent: &mut Lent) -> Result<u64, String> {
    match also {
        Also::Nothing => Ok(0),
        Also::Parts { seed, mixed: false } => compare_parts(&parts_of(log, seed, false), image, answer, lent),
        Also::Parts { seed, mixed: true } => {
            let parts = parts_of(log, seed, true);
            compare_parts(&parts, image, &played_in_a_row(&parts, image), lent)
        }
        Also::CutInTwo => compare_cut_in_two(log, image, answer, after, lent),
    }
}

/// Both sides of one case. One turn in four adds outputs and places of other lengths.
pub fn compare(case: &Case, turn: u64, lent: &mut Lent) -> Result<Sums, String> {
    let image = first_image(case, turn, lent)?;
    let log = match log::parse(&case.log) {
        Err(refused) => return compare_refused(case, refused, turn, &image, lent),
        Ok(parsed) => parsed,
    };
    let mut unit = case.image.map_or_else(|| original::make(log.start), |image| original::take_up(&image));
    same_image("what the original loads and saves", &image, &original::image(&unit))?;
    let mut answer = Answer::default();
    original::play_on(&mut unit, &log.records, &mut answer);
    let (after, edges) = (original::image(&unit), turn % 4 == 0);
    if case.image.is_none() {
        compare_fresh(&case.log, &answer, edges, &mut lent.out)?;
    }
    compare_from(case, &image, &answer, &after, turn, lent)?;
    if edges {
        compare_edges(case, &image, &answer, &after, turn, lent)?;
    }
    let standing = compare_standing(&log, &image, &answer, &after, lent)?;
    let images = 2 + standing + compare_also(case.also, &log, &image, &answer, &after, lent)?;
    Ok(Sums { logs: 1, refused: 0, records: answer.records, clocks: answer.clocks, frames: answer.frames, bytes: answer.bytes.len() as u64, images })
}

/// A case whose log is as small as it can be cut down to while it still differs.
pub fn shrink(case: &Case) -> Case {
    let mut lent = Lent::new();
    let with = |log: &[u8]| Case { log: log.to_vec(), ..case.clone() };
    // a difference may show at some turns alone
    let mut differs = |log: &[u8]| (0..20).any(|turn| compare(&with(log), turn, &mut lent).is_err());
    let Ok(mut log) = log::parse(&case.log) else {
        let mut log = case.log.clone();
        while log.len() > 1 && differs(&log[..log.len() - 1]) {
            log.pop();
        }
        return with(&log);
    };
    loop {
        let before = log.records.clone();
        drop_records(&mut log, &mut differs);
        simplify(&mut log, &mut differs);
        if log.records == before {
            return with(&log.with(&log.records));
        }
    }
}

/// Leaves out rows of records, ever shorter ones, as long as the log still differs.
fn drop_records(log: &mut Log, differs: &mut impl FnMut(&[u8]) -> bool) {
    let mut step = log.records.len();
    while step > 0 {
        let mut at = 0;
        while at < log.records.len() {
            let mut fewer = log.records.clone();
            fewer.drain(at..(at + step).min(log.records.len()));
            if differs(&log.with(&fewer)) {
                log.records = fewer;
            } else {
                at += step;
            }
        }
        step /= 2;
    }
}

/// The same calls made plainer, in several ways: fewer of them, normal speed, divider and phase 0.
fn plainer_clocks(double: bool, divider: u8, phase: Option<u8>, count: u16) -> Vec<Record> {
    let zero = phase.map(|_| 0);
    let less = [(false, 0, zero, 1), (false, divider, phase, 1), (double, 0, zero, count), (double, divider, zero, count), (double, 0, phase, count)];
    let fewer = [(false, divider, phase, count), (double, divider, phase, count / 2), (double, divider, phase, count - 1)];
    let all = less.into_iter().chain(fewer).filter(|&(.., count)| count > 0);
    all.map(|(double, divider, phase, count)| Record::Clock { double, divider, phase, count }).collect()
}

/// Tries plainer clock records, and the value 0 or fewer bits of it in each write.
fn simplify(log: &mut Log, differs: &mut impl FnMut(&[u8]) -> bool) {
    for at in 0..log.records.len() {
        let plainer: Vec<Record> = match log.records[at] {
            Record::Clock { double, divider, phase, count } => plainer_clocks(double, divider, phase, count),
            Record::Write { addr, value } => [0, value & 0x80, value & 0xF0, value & 0xC7].map(|value| Record::Write { addr, value }).to_vec(),
            _ => Vec::new(),
        };
        for record in plainer {
            let kept = std::mem::replace(&mut log.records[at], record);
            if kept != record && differs(&log.with(&log.records)) {
                break;
            }
            log.records[at] = kept;
        }
    }
}

/// A digest of an output: two remainders of it, read as digits.
pub fn digest(bytes: &[u8]) -> u64 {
    let (mut a, mut b) = (0u64, 0u64);
    for &byte in bytes {
        a = (a * 257 + u64::from(byte) + 1) % 4294967291;
        b = (b * 65599 + u64::from(byte) + 1) % 4294967279;
    }
    a << 32 | b
}
