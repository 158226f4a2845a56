//! Compares the proved importer of VGM files with a second one, and what its logs play with the original driven straight from the files. See
//! host/compare-imports.
mod compare;
mod entry;
mod generate;
mod importer;
#[path = "../differential/log.rs"]
#[allow(dead_code)]
mod log;
mod long;
#[path = "../differential/original.rs"]
#[allow(dead_code)]
mod original;
mod straight;
mod vectors;

/// The driver of the original speaks of images too; here none is kept.
mod image {
    pub type Image = [u8; 164];
}

use compare::Sums;
use entry::Lent;
use generate::{Family, Play};
use std::sync::atomic::{AtomicU64, Ordering::Relaxed};
use std::sync::Mutex;
use std::time::Instant;

/// A file that differs, with what is needed to see it again.
struct Difference {
    file: Vec<u8>,
    turn: u64,
    play: Play,
    what: String,
}

/// What became of the families: the sums and the differing files of each, and the smallest of all that differ.
struct Run {
    sums: Vec<Sums>,
    differing: Vec<u64>,
    smallest: Option<Difference>,
}

impl Run {
    fn differs(&mut self, number: usize, difference: Difference) {
        self.sums[number].files += 1;
        self.differing[number] += 1;
        if self.smallest.as_ref().map_or(true, |smallest| difference.file.len() < smallest.file.len()) {
            self.smallest = Some(difference);
        }
    }
}

/// One family, on every processor.
fn run_family(family: &Family, number: usize, run: &Mutex<Run>) {
    let next = AtomicU64::new(0);
    let threads = std::thread::available_parallelism().map_or(1, usize::from) as u64;
    let chunk = (family.files / threads / 64).clamp(1, 256);
    let work = || {
        let (mut sums, mut lent) = (Sums::default(), Lent::new());
        loop {
            let from = next.fetch_add(chunk, Relaxed);
            for turn in from..family.files.min(from + chunk) {
                let file = (family.make)(turn);
                match compare::compare(&file, turn, family.play, &mut lent) {
                    Ok(one) => sums.add(&one),
                    Err(what) => run.lock().expect("no thread panicked").differs(number, Difference { file, turn, play: family.play, what }),
                }
            }
            if from >= family.files {
                break;
            }
        }
        run.lock().expect("no thread panicked").sums[number].add(&sums);
    };
    std::thread::scope(|scope| (0..threads).for_each(|_| drop(scope.spawn(work))));
}

fn grouped(number: u64) -> String {
    let digits = number.to_string();
    let mut out = String::new();
    for (at, digit) in digits.chars().enumerate() {
        if at > 0 && (digits.len() - at) % 3 == 0 {
            out.push(',');
        }
        out.push(digit);
    }
    out
}

fn print_table(families: &[Family], run: &Run) -> Sums {
    println!("| kind of file | files | imported | refused 9 | 10 | 11 | imports | log bytes compared | played | clocks | frames | differing |");
    println!("|---|---:|---:|---:|---:|---:|---:|---:|---:|---:|---:|---:|");
    let row = |name: &str, sums: &Sums, differing: u64| {
        let [wrong, command, long] = sums.refused;
        let cells = [sums.files, sums.imported, wrong, command, long, sums.calls, sums.bytes, sums.played, sums.clocks, sums.frames, differing];
        println!("| {name} | {} |", cells.map(grouped).join(" | "));
    };
    let mut total = Sums::default();
    for (number, family) in families.iter().enumerate() {
        row(family.name, &run.sums[number], run.differing[number]);
        total.add(&run.sums[number]);
    }
    row("all", &total, run.differing.iter().sum());
    total
}

fn print_hex(file: &[u8]) {
    for (number, line) in file.chunks(32).enumerate() {
        let bytes: Vec<String> = line.iter().map(|byte| format!("{byte:02X}")).collect();
        println!("  {:04X}: {}", number * 32, bytes.join(" "));
    }
}

/// The smallest file that differs, cut down, in hex and to a file.
fn report(found: &Difference) {
    let file = compare::shrink(&found.file, found.turn, found.play);
    let what = compare::compare(&file, found.turn, found.play, &mut Lent::new()).err().unwrap_or_else(|| found.what.clone());
    println!("a difference, the smallest of all cut down to {} bytes:", file.len());
    print_hex(&file);
    if let Some(place) = std::env::var_os("DIFFERENCE").map(std::path::PathBuf::from) {
        match std::fs::write(&place, &file) {
            Ok(()) => println!("it is in {}", place.display()),
            Err(error) => println!("{} could not be written: {error}", place.display()),
        }
    }
    println!("{what}");
}

/// How many files by hand the second importer answers otherwise than by hand.
fn wrong_by_hand() -> usize {
    let wrong = vectors::all().into_iter().filter(|(file, answer)| importer::import(file) != *answer);
    let told = wrong.inspect(|(file, answer)| {
        println!("by hand {answer:X?}, by the second importer {:X?}:", importer::import(file));
        print_hex(file);
    });
    told.count()
}

fn usage(error: &str) -> ! {
    eprintln!("{error}\nusage: host/compare-imports [--files N] [--seed S] [--file FILE] [--oracle PATH]");
    std::process::exit(2)
}

/// One file: whether it is the same by both importers, and played.
fn one_file(name: &str) -> i32 {
    let file = std::fs::read(name).unwrap_or_else(|error| usage(&format!("{name}: {error}")));
    let play = Play { one_in: 1, calls: u128::MAX };
    match compare::compare(&file, 0, play, &mut Lent::new()) {
        Ok(sums) => {
            let [wrong, command, long] = sums.refused;
            println!("refused with 9: {wrong}, 10: {command}, 11: {long}; log bytes {}, clocks {}, frames {}", sums.bytes, sums.clocks, sums.frames);
            println!("both the same");
            0
        }
        Err(what) => {
            report(&Difference { file, turn: 0, play, what });
            1
        }
    }
}

/// How many random files, and the seed.
fn options() -> (u64, u64) {
    let (mut files, mut seed) = (60_000, 1);
    let mut words = std::env::args().skip(1);
    while let Some(word) = words.next() {
        let value = words.next().unwrap_or_else(|| usage(&format!("{word} takes a value")));
        let number = || value.parse().unwrap_or_else(|_| usage(&format!("{value} is no number")));
        match word.as_str() {
            "--files" => files = number(),
            "--seed" => seed = number(),
            "--file" => std::process::exit(one_file(&value)),
            _ => usage(&format!("{word} is no option")),
        }
    }
    (files, seed)
}

fn main() {
    let (files, seed) = options();
    let began = Instant::now();
    let (by_hand, long) = (wrong_by_hand(), long::run());
    let families = generate::families(files, seed);
    let run = Mutex::new(Run { sums: vec![Sums::default(); families.len()], differing: vec![0; families.len()], smallest: None });
    families.iter().enumerate().for_each(|(number, family)| run_family(family, number, &run));
    let run = run.into_inner().expect("no thread panicked");
    let total = print_table(&families, &run);
    println!("\nseed {seed}, {:.0} s on {}", began.elapsed().as_secs_f64(), std::env::consts::ARCH);
    if let Some(found) = &run.smallest {
        report(found);
    }
    let differing: u64 = run.differing.iter().sum();
    let (all, played, long_files) = (grouped(total.files), grouped(total.played), if long { "as they should be" } else { "WRONG" });
    println!("{all} files, {played} of them played, {differing} differing; {by_hand} by hand wrong; long files {long_files}");
    std::process::exit(i32::from(by_hand > 0 || !long || differing > 0));
}
