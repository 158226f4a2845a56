//! Times the proved player and the original on the same logs, in one run and by turns, and prints medians, their spread and the ratio.
#[path = "../differential/log.rs"]
#[allow(dead_code)]
mod log;

use log::Record;
use oracle::{apu::Apu, GameBoyConfig};
use std::time::Instant;

// Working clocks a second of the machine that is imitated.
const REAL_TIME: f64 = 1_048_576.0;

/// A log of one kind, of a version.
struct Family {
    name: &'static str,
    version: u8,
    records: Vec<Record>,
}

fn write(addr: u16, value: u8) -> Record {
    Record::Write { addr, value }
}

// Power and volumes, and all four channels triggered: pulse frequencies and FF22 as given.
fn sounding(frequency: u16, wave: u16, noise: u8) -> Vec<Record> {
    let (low, high) = (frequency as u8, 0x80 | (frequency >> 8) as u8);
    let mut records = vec![write(0xFF26, 0x80), write(0xFF24, 0x77), write(0xFF25, 0xFF), write(0xFF11, 0x80), write(0xFF12, 0xF0), write(0xFF13, low), write(0xFF14, high)];
    records.extend([write(0xFF16, 0x40), write(0xFF17, 0xF0), write(0xFF18, low ^ 0x35), write(0xFF19, high), write(0xFF1A, 0x80), write(0xFF1C, 0x20)]);
    records.extend((0..16).map(|i| write(0xFF30 + i, (i * 37 + 11) as u8)));
    records.extend([write(0xFF1D, wave as u8), write(0xFF1E, 0x80 | (wave >> 8) as u8), write(0xFF21, 0xF0), write(0xFF22, noise), write(0xFF23, 0x80)]);
    records
}

// A clock record from the given call on: the divider goes up by 1 every 64 calls, in version 1 from record to record alone. A record of 16,384 calls is one
// whole turn of it; in version 1 it would find the same byte each time and the sequencer would never move, so there every other one has 30 in place of 00.
fn clock(version: u8, double: bool, at: u32, count: u16) -> Record {
    let turned = if version == 1 && count == 16384 { at / 16384 % 2 * 0x30 } else { 0 };
    Record::Clock { double, divider: (at / 64) as u8 ^ turned as u8, phase: (version == 2).then_some((at % 64) as u8), count }
}

// Clock records of `count` calls each, `calls` in all.
fn family(version: u8, name: &'static str, mut records: Vec<Record>, double: bool, count: u16, calls: u32) -> Family {
    records.extend((0..calls / u32::from(count)).map(|i| clock(version, double, i * u32::from(count), count)));
    Family { name, version, records }
}

// Clock records, each with a write before it.
fn between_writes(version: u8, name: &'static str, count: u16, records: u32) -> Family {
    let mut log = sounding(0x6D6, 0x600, 0x44);
    for i in 0..records {
        log.push(write(0xFF13, i as u8));
        log.push(clock(version, false, i * u32::from(count), count));
    }
    Family { name, version, records: log }
}

// Calls from the given one on; gives the next call. In version 1 they are cut where bit 4 of the divider changes, every 1,024 calls.
fn gap(version: u8, records: &mut Vec<Record>, from: u32, calls: u32) -> u32 {
    let (mut at, end) = (from, from + calls);
    while at < end {
        let most = if version == 1 { 1024 - at % 1024 } else { 16384 };
        let count = most.min(end - at);
        records.push(clock(version, false, at, count as u16));
        at += count;
    }
    end
}

// All that the sequencer moves is at work: the sweep of pulse 1, every length and envelope. Everything is begun again after four records, before it would end.
fn all_running(name: &'static str) -> Family {
    let mut records = sounding(0x6D6, 0x600, 0x44);
    for i in 0..256 {
        if i % 4 == 0 {
            records.extend([write(0xFF10, 0x17), write(0xFF11, 0x80), write(0xFF12, 0xF1), write(0xFF13, 0xD6), write(0xFF14, 0xC6)]);
            records.extend([write(0xFF16, 0x40), write(0xFF17, 0xF1), write(0xFF19, 0xC6), write(0xFF1B, 0x00), write(0xFF1E, 0xC6)]);
            records.extend([write(0xFF20, 0x00), write(0xFF21, 0xF1), write(0xFF23, 0xC0)]);
        }
        records.push(clock(2, false, i * 16384, 16384));
    }
    Family { name, version: 2, records }
}

// Like a game's: for each of 200 pictures of 17,556 calls twelve writes, 4 to 26 calls apart, and then none up to the next picture.
fn game(version: u8, name: &'static str) -> Family {
    let mut records = sounding(0x6D6, 0x600, 0x44);
    let mut at = 0;
    for picture in 0..200u32 {
        let burst = [0x13, 0x12, 0x14, 0x18, 0x17, 0x19, 0x1D, 0x1E, 0x22, 0x21, 0x23, 0x25];
        for (i, low) in burst.into_iter().enumerate() {
            let value = match low {
                0x12 | 0x17 | 0x21 => 0xF1 ^ (picture as u8 % 4 << 4),
                0x14 | 0x19 | 0x1E | 0x23 => 0x86,
                0x22 => 0x30 + picture as u8 % 8,
                0x25 => 0xFF,
                _ => (picture * 29) as u8,
            };
            records.push(write(0xFF00 + low, value));
            at = gap(version, &mut records, at, 4 + 2 * i as u32);
        }
        at = gap(version, &mut records, at, 17_556 * (picture + 1) - at);
    }
    Family { name, version, records }
}

fn families() -> Vec<Family> {
    let (off, none) = (vec![write(0xFF26, 0x00)], vec![write(0xFF26, 0x80), write(0xFF24, 0x77), write(0xFF25, 0xFF)]);
    let four = || sounding(0x6D6, 0x600, 0x44);
    vec![
        family(1, "long records, four channels", four(), false, 16384, 4_194_304),
        family(1, "long records, double speed", four(), true, 16384, 4_194_304),
        family(1, "long records, the divider moving", four(), false, 16000, 4_000_000),
        game(1, "a game's log: bursts and gaps"),
        family(1, "records of 1,000 calls", four(), false, 1000, 2_000_000),
        family(1, "records of 64 calls", four(), false, 64, 512_000),
        family(1, "records of 64 calls, double speed", four(), true, 64, 512_000),
        family(1, "power off, long records", off.clone(), false, 16384, 4_194_304),
        family(1, "power off, records of 64 calls", off.clone(), false, 64, 512_000),
        family(1, "no channel on, long records", none, false, 16384, 4_194_304),
        family(1, "highest frequencies, long records", sounding(0x7FF, 0x7FF, 0x00), false, 16384, 4_194_304),
        family(1, "highest frequencies, 64 calls", sounding(0x7FF, 0x7FF, 0x00), false, 64, 512_000),
        family(1, "noise at its fastest, long records", sounding(0x6D6, 0x600, 0xE8), false, 16384, 4_194_304),
        family(1, "noise at its fastest, 64 calls", sounding(0x6D6, 0x600, 0xE8), false, 64, 512_000),
        family(2, "version 2, long, four channels", four(), false, 16384, 4_194_304),
        family(2, "version 2, long, double speed", four(), true, 16384, 4_194_304),
        all_running("version 2, sweep, lengths, envelopes"),
        game(2, "version 2, a game's log"),
        family(2, "version 2, records of 1,000 calls", four(), false, 1000, 2_000_000),
        family(2, "version 2, records of 64 calls", four(), false, 64, 512_000),
        family(2, "version 2, power off, long", off, false, 16384, 4_194_304),
    ]
}

// Where a record's own cost shows.
fn short_families() -> Vec<Family> {
    let short = |version, name, count| family(version, name, sounding(0x6D6, 0x600, 0x44), false, count, 8000 * u32::from(count));
    vec![
        short(1, "records of 1 call", 1),
        short(1, "records of 4 calls", 4),
        short(1, "records of 8 calls", 8),
        short(1, "records of 16 calls", 16),
        between_writes(1, "a write, then 16 calls", 16, 4000),
        between_writes(1, "a write, then 64 calls", 64, 4000),
        between_writes(1, "a write, then 1,000 calls", 1000, 4000),
        short(2, "version 2, records of 1 call", 1),
        short(2, "version 2, records of 16 calls", 16),
        between_writes(2, "version 2, a write, then 16 calls", 16, 4000),
    ]
}

// The original: its own unit, driven by the records, its buffers taken after each clock record as a renderer would; nothing is turned into bytes.
fn original(records: &[Record]) -> usize {
    let mut unit = Apu::new(GameBoyConfig { is_dmg: true });
    let mut numbers = 0;
    for record in records {
        match *record {
            Record::Write { addr, value } => unit.write_register(addr, value),
            Record::Clock { double, divider, phase: None, count } => {
                for _ in 0..count {
                    unit.clock(double, divider);
                }
                numbers += unit.get_buffers().all().len();
            }
            // as a host has it, by one counter of calls
            Record::Clock { double, divider, phase: Some(phase), count } => {
                let from = u32::from(divider) * 64 + u32::from(phase);
                for at in from..from + u32::from(count) {
                    unit.clock(double, (at / 64) as u8);
                }
                numbers += unit.get_buffers().all().len();
            }
            _ => {}
        }
    }
    numbers / 2
}

// How often the sequencer moves, by document 01's steps of a clock call: with power on a working clock stores the divider's bit, which falls. It is not timed.
fn sequencer_steps(records: &[Record]) -> u64 {
    let (mut power, mut halves, mut stored, mut steps) = (false, 0, false, 0);
    for record in records {
        match *record {
            Record::Write { addr: 0xFF26, value } => power = value & 0x80 != 0,
            Record::Clock { double, divider, phase, count } => {
                for i in 0..count {
                    halves = halves % 2 + if double { 1 } else { 2 };
                    if halves >= 2 && power {
                        let bit = log::divider_at(divider, phase, i) & if double { 0x20 } else { 0x10 } != 0;
                        steps += u64::from(stored && !bit);
                        stored = bit;
                    }
                }
            }
            _ => {}
        }
    }
    steps
}

fn median(times: &mut [f64]) -> f64 {
    times.sort_by(f64::total_cmp);
    times[times.len() / 2]
}

// Both sides by turns; prints the line and gives the ratio: the median of the rounds' own, since a shared machine changes its speed from round to round.
fn measure(family: &Family, rounds: usize, out: &mut [u8]) -> f64 {
    let log = log::bytes(family.version, 1, &family.records);
    let steps = sequencer_steps(&family.records);
    assert!(steps > 0 || family.records[0] == write(0xFF26, 0), "{}: the sequencer never moves", family.name);
    let (mut calls, mut working) = (0.0, 0.0);
    for record in &family.records {
        if let Record::Clock { count, double, .. } = *record {
            calls += f64::from(count);
            working += f64::from(count) / if double { 2.0 } else { 1.0 };
        }
    }
    let (mut theirs, mut ours) = (Vec::new(), Vec::new());
    for _ in 0..rounds {
        let began = Instant::now();
        let frames = original(&family.records);
        theirs.push(began.elapsed().as_secs_f64());
        let began = Instant::now();
        let played = besticoro::render(&log, out).expect("a right log with room");
        ours.push(began.elapsed().as_secs_f64());
        assert_eq!(played.frames_made(), frames as u64, "{}: the two made different numbers of frames", family.name);
    }
    let mut ratios: Vec<f64> = theirs.iter().zip(&ours).map(|(theirs, ours)| theirs / ours).collect();
    let (slow, fast, ratio) = (median(&mut theirs), median(&mut ours), median(&mut ratios));
    let rate = |times: &[f64], middle: f64| format!("{:.1} ({:.2})", calls / middle / 1e6, times[times.len() - 1] / times[0]);
    println!("{:36} {:>16} {:>16} {:>10.0} {:>7.2} {:>6}", family.name, rate(&theirs, slow), rate(&ours, fast), working / fast / REAL_TIME, ratio, steps);
    ratio
}

// The peak of this process's memory so far, in kB.
fn peak() -> u64 {
    let status = std::fs::read_to_string("/proc/self/status").unwrap_or_default();
    let line = status.lines().find(|line| line.starts_with("VmHWM")).unwrap_or("VmHWM: 0 kB");
    line.split_whitespace().nth(1).and_then(|word| word.parse().ok()).unwrap_or(0)
}

// The log with the most calls that fits in 65,536 bytes: what its scan costs, its playing, and its memory beside log and output.
fn largest() {
    let log = |count| log::bytes(1, 1, &vec![Record::Clock { double: false, divider: 0, phase: None, count }; 65534 / 7]);
    let scan = |log: &[u8]| {
        let mut times: Vec<f64> = (0..9).map(|_| {
            let began = Instant::now();
            besticoro::render(log, &mut []).expect_err("an output without room");
            began.elapsed().as_secs_f64()
        }).collect();
        median(&mut times) * 1e6
    };
    let (most, least) = (scan(&log(16384)), scan(&log(1)));
    let mut out = vec![1u8; 270 << 20];
    let before = peak();
    let began = Instant::now();
    let played = besticoro::render(&log(16384), &mut out).expect("a right log with room");
    let took = began.elapsed().as_secs_f64();
    println!(
        "the largest log: {} records, {} calls, {} frames: scanned in {most:.0} us (as many records of one call: {least:.0} us), played in {took:.2} s, peak memory {} kB more than before",
        played.records(),
        played.clock_calls(),
        played.frames_made(),
        peak() - before
    );
}

fn main() {
    let words: Vec<String> = std::env::args().collect();
    let rounds: usize = words.get(1).map_or(9, |word| word.parse().expect("bench [ROUNDS]")).max(7);
    let mut out = vec![0u8; 16 << 20];
    println!("{rounds} rounds, each side by turns; medians of millions of clock calls a second, in brackets slowest over fastest round; the median of the rounds' ratios; steps of the sequencer");
    println!("{:36} {:>16} {:>16} {:>10} {:>7} {:>6}", "", "the crate", "this port", "real time", "ratio", "steps");
    let first: Vec<f64> = families().iter().map(|family| measure(family, rounds, &mut out)).collect();
    println!("where a record's own cost shows, against the crate's bare calls:");
    let short: Vec<f64> = short_families().iter().map(|family| measure(family, rounds, &mut out)).collect();
    largest();
    let least = |ratios: &[f64]| ratios.iter().copied().fold(f64::MAX, f64::min);
    let below = first.iter().chain(&short).filter(|ratio| **ratio < 1.0).count();
    println!(
        "ratio of the crate's time to this port's: worst {:.2}, typical {:.2} over the first table, worst {:.2} over the second; families slower than the crate: {below}",
        least(&first),
        median(&mut first.clone()),
        least(&short)
    );
    std::process::exit(i32::from(below > 0));
}
