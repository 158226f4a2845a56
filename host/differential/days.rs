//! Days of sound through images: a chain of logs of both versions on each model, the port from image to image, the original in one go beside it. See ./days.
use crate::generate::{self, Random};
use crate::image::{Image, IMAGE_BYTES};
use crate::original::{self, Answer};
use crate::log;
use crate::port::{done, Lent};
use std::io::{IsTerminal, Write};
use std::sync::atomic::{AtomicBool, AtomicU64, Ordering::Relaxed};
use std::time::Instant;

/// Working clocks of an hour: 1,048,576 a second.
const HOUR: f64 = 3600.0 * 1_048_576.0;
/// Document 01's K, in units of 2^-48: a frame's length.
const K: u128 = 6_692_696_262_570_359;
/// Half-clocks that a link has at most, so that its output keeps to some 10 million bytes.
const MOST: u64 = 10_000_000;

/// A running digest of bytes in pieces: four lanes of eight bytes, multiplied and turned.
#[derive(Clone, Copy, PartialEq, Eq)]
struct Digest {
    lanes: [u64; 4],
    length: u64,
}

impl Digest {
    fn new() -> Digest {
        Digest { lanes: [1, 2, 3, 4].map(|lane| lane * 0x9E37_79B9_7F4A_7C15), length: 0 }
    }

    fn mix(lane: u64, word: &[u8]) -> u64 {
        let word = u64::from_le_bytes(word.try_into().expect("eight bytes"));
        (lane ^ word).wrapping_mul(0xD6E8_FEB8_6659_FD93).rotate_left(29)
    }

    /// The piece's length is mixed in too: pieces of other lengths give another digest.
    fn add(&mut self, bytes: &[u8]) {
        let chunks = bytes.chunks_exact(32);
        let mut last = [0; 32];
        last[..chunks.remainder().len()].copy_from_slice(chunks.remainder());
        for chunk in chunks.chain([&last[..]]) {
            for (lane, word) in self.lanes.iter_mut().zip(chunk.chunks_exact(8)) {
                *lane = Digest::mix(*lane, word);
            }
        }
        self.length += bytes.len() as u64;
        self.lanes[0] ^= self.length;
    }

    fn value(&self) -> u64 {
        self.lanes.iter().fold(self.length, |sum, lane| Digest::mix(sum, &lane.to_le_bytes()))
    }
}

/// The frames of an output in which each of the four channels has a sample that is not 0.
fn frames_of_all_four(mut bytes: &[u8]) -> u64 {
    let mut frames = 0;
    while let Some(&kind) = bytes.first() {
        frames += u64::from(kind == 0x46 && bytes[1..33].chunks_exact(8).all(|samples| samples != [0; 8]));
        bytes = &bytes[match kind { 0x46 => 41, 0x52 => 2, _ => 3 }..];
    }
    frames
}

/// What a chain came to.
#[derive(Clone, Default)]
struct Sums {
    links: u64,
    records: u64,
    calls: u64,
    halves: u128,
    frames: u64,
    heard: u64,
    bytes: u64,
    digests: [u64; 2],
    wrong: Option<String>,
}

/// A chain under way: the port's image, the original's own unit.
struct Chain {
    image: Image,
    unit: oracle::apu::Apu,
    lent: Lent,
    answer: Answer,
    digests: [Digest; 2],
    sums: Sums,
}

impl Chain {
    /// Both from a fresh unit; the port's image is the one that it makes.
    fn new(start: u8) -> Result<Chain, String> {
        let mut lent = Lent::new();
        if lent.make(start, IMAGE_BYTES) != done(IMAGE_BYTES) {
            return Err("no fresh image was made".into());
        }
        let image = lent.image_after().try_into().expect("an image");
        Ok(Chain { image, unit: original::make(start), lent, answer: Answer::default(), digests: [Digest::new(); 2], sums: Sums::default() })
    }

    /// One link: a log played by both; outputs, digests, counts and the state after it must be equal.
    fn link(&mut self, log: &[u8]) -> Result<(), String> {
        let records = log::parse(log).map_err(|refused| format!("the log is refused: {refused:?}"))?.records;
        self.answer.bytes.clear();
        (self.answer.frames, self.answer.clocks, self.answer.records) = (0, 0, 0);
        original::play_on(&mut self.unit, &records, &mut self.answer);
        let (needed, counts) = (self.answer.bytes.len(), [self.answer.frames, self.answer.clocks, self.answer.records]);
        let told = self.lent.play(&self.image, log, needed, IMAGE_BYTES, true);
        if told != done(needed) {
            return Err(format!("{told:?}, and the original made {needed} bytes"));
        }
        if self.lent.counts[..3] != counts {
            return Err(format!("frames, clock calls and records are {:?}, by the original {counts:?}", &self.lent.counts[..3]));
        }
        self.digests[0].add(&self.lent.out[..needed]);
        self.digests[1].add(&self.answer.bytes);
        if self.digests[0] != self.digests[1] || self.lent.out[..needed] != self.answer.bytes[..] {
            let at = (0..needed).find(|&at| self.lent.out[at] != self.answer.bytes[at]);
            return Err(format!("the output differs, from byte {at:?} of the link on"));
        }
        self.image.copy_from_slice(self.lent.image_after());
        if self.image != original::image(&self.unit) {
            return Err("the image after differs from the original's state".into());
        }
        self.count(&records, counts);
        Ok(())
    }

    fn count(&mut self, records: &[log::Record], [frames, calls, count]: [u64; 3]) {
        self.sums.links += 1;
        self.sums.records += count;
        self.sums.calls += calls;
        self.sums.halves += records.iter().map(|record| generate::halves(record) as u128).sum::<u128>();
        self.sums.frames += frames;
        self.sums.heard += frames_of_all_four(&self.answer.bytes);
        self.sums.bytes += self.answer.bytes.len() as u64;
    }

    fn clocks(&self) -> u64 {
        (self.sums.halves / 2) as u64
    }

    /// The frames of so many half-clocks from a fresh unit: document 01's demand 3.
    fn frames_by_formula(&self) -> u128 {
        ((self.sums.halves / 2) << 48) / K
    }
}

/// Plays a chain up to so many working clocks, or until the other chain is wrong.
fn play(start: u8, seed: u64, clocks: u64, shown: &AtomicU64, stop: &AtomicBool) -> Sums {
    let mut chain = match Chain::new(start) {
        Ok(chain) => chain,
        Err(wrong) => return Sums { wrong: Some(wrong), ..Sums::default() },
    };
    while chain.clocks() < clocks && !stop.load(Relaxed) {
        let number = chain.sums.links;
        // one link in two is of version 2
        let version = 1 + (number % 2) as u8;
        let log = generate::link(version, Random::new(seed, 64 + usize::from(start), number), MOST.min(2 * (clocks - chain.clocks()) + 40_000));
        if let Err(wrong) = chain.link(&log) {
            chain.sums.wrong = Some(format!("start {start}, link {number}: {wrong}"));
            stop.store(true, Relaxed);
        }
        shown.store(chain.clocks(), Relaxed);
    }
    if chain.sums.wrong.is_none() && u128::from(chain.sums.frames) != chain.frames_by_formula() {
        chain.sums.wrong = Some(format!("start {start}: {} frames, by the formula {}", chain.sums.frames, chain.frames_by_formula()));
    }
    Sums { digests: chain.digests.map(|digest| digest.value()), ..chain.sums }
}

fn row(name: &str, sums: &Sums) {
    let [ours, theirs] = sums.digests.map(|digest| format!("{digest:016X}"));
    let cells = [sums.links, sums.records, sums.calls, (sums.halves / 2) as u64, sums.frames, sums.heard, sums.bytes].map(crate::grouped);
    println!("| {name} | {} | {ours} | {theirs} | {} |", cells.join(" | "), u64::from(sums.wrong.is_some()));
}

/// The progress of both chains, on one line, until they are done.
fn show(clocks: u64, shown: &[AtomicU64; 2], done: impl Fn() -> bool) {
    let (began, terminal) = (Instant::now(), std::io::stderr().is_terminal());
    let mut told = 0;
    while !done() {
        std::thread::sleep(std::time::Duration::from_millis(200));
        let hours = [0, 1].map(|chain| shown[chain].load(Relaxed) as f64 / HOUR);
        let (wanted, seconds) = (clocks as f64 / HOUR, began.elapsed().as_secs_f64());
        let line = format!("DMG {:.3} h, the other model {:.3} h, of {wanted:.3} each; {seconds:.0} s", hours[0], hours[1]);
        let minutes = began.elapsed().as_secs() / 60;
        if terminal {
            eprint!("\r{line} \x1b[K");
        } else if minutes > told {
            told = minutes;
            eprintln!("{line}");
        }
    }
    if terminal {
        eprint!("\r\x1b[K");
    }
}

/// Two chains, one on each model, of so many hours each; the status.
pub fn run(hours: f64, seed: u64) -> i32 {
    let (clocks, began) = ((hours * HOUR).ceil() as u64, Instant::now());
    let (shown, stop) = ([AtomicU64::new(0), AtomicU64::new(0)], AtomicBool::new(false));
    let sums = std::thread::scope(|scope| {
        let (shown, stop) = (&shown, &stop);
        let chains = [(1, 0), (2, 1)].map(|(start, number)| scope.spawn(move || play(start, seed, clocks, &shown[number], stop)));
        show(clocks, shown, || chains.iter().all(|chain| chain.is_finished()));
        chains.map(|chain| chain.join().expect("no thread panicked"))
    });
    println!("| chain | links | records | clock calls | working clocks | frames | with all four heard | bytes | digest | the original's | differing |");
    println!("|---|---:|---:|---:|---:|---:|---:|---:|---|---|---:|");
    row("DMG, fresh", &sums[0]);
    row("the other model, after the boot program", &sums[1]);
    let wrong: Vec<&String> = sums.iter().filter_map(|sums| sums.wrong.as_ref()).collect();
    wrong.iter().for_each(|wrong| println!("WRONG: {wrong}"));
    let total = sums.iter().map(|sums| sums.halves / 2).sum::<u128>() as f64 / HOUR;
    let links = sums.iter().map(|sums| sums.links).sum();
    let (links, seconds) = (crate::grouped(links), began.elapsed().as_secs_f64());
    println!("seed {seed}, {total:.4} hours of working clocks in {links} links and as many images, {seconds:.0} s: {} differing", wrong.len());
    std::io::stdout().flush().ok();
    i32::from(!wrong.is_empty())
}
