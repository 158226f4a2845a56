//! Compares the proved player with the original, log by log. See ./differential.
mod acceptance;
mod compare;
mod days;
mod generate;
mod image;
mod log;
mod original;
mod port;
mod record;

use compare::{Also, Case, Sums};
use generate::{BODY_LOGS, BODY_LOGS_2, CASES_2, FAMILIES, FAMILIES_2, FROM_IMAGES, PHASE_LOGS, REGISTER_LOGS, SHORT_LOGS};
use std::io::{IsTerminal, Write};
use std::sync::atomic::{AtomicBool, AtomicU64, Ordering::Relaxed};
use std::sync::Mutex;
use std::time::{Duration, Instant};

struct Options {
    image: Option<image::Image>,
    logs: u64,
    seed: u64,
    minutes: Option<f64>,
    keep_going: bool,
}

/// A family, how many cases of it there are, and the case by its number.
struct Family {
    name: &'static str,
    logs: u64,
    make: Box<dyn Fn(u64) -> Case + Sync>,
}

fn on_fresh_units(name: &'static str, logs: u64, make: impl Fn(u64) -> Vec<u8> + Sync + 'static) -> Family {
    Family { name, logs, make: Box::new(move |index| Case { log: make(index), ..Case::default() }) }
}

fn families(options: &Options) -> Vec<Family> {
    let seed = options.seed;
    let many = |share: u64| if options.minutes.is_some() { u64::MAX } else { (options.logs * share).div_ceil(10000) };
    let mut all: Vec<Family> = Vec::new();
    for (number, (name, share)) in FAMILIES.into_iter().enumerate() {
        all.push(on_fresh_units(name, many(share), move |index| generate::make(number, seed, index)));
    }
    for (number, (name, share)) in FROM_IMAGES.into_iter().enumerate() {
        let reader = image::Reader::new();
        all.push(Family { name, logs: many(share), make: Box::new(move |index| generate::from_image(&reader, number, seed, index)) });
    }
    all.push(on_fresh_units("every register and byte", REGISTER_LOGS, generate::register_log));
    all.push(on_fresh_units("every body of one record", BODY_LOGS, generate::body_log));
    all.push(on_fresh_units("every log to 3 bytes", SHORT_LOGS, generate::short_log));
    for (number, (name, share)) in FAMILIES_2.into_iter().enumerate() {
        all.push(on_fresh_units(name, many(share), move |index| generate::make_2(number, seed, index)));
    }
    for (number, (name, share)) in CASES_2.into_iter().enumerate() {
        let reader = image::Reader::new();
        all.push(Family { name, logs: many(share), make: Box::new(move |index| generate::case_2(&reader, number, seed, index)) });
    }
    all.push(on_fresh_units("version 2, every byte and phase", PHASE_LOGS, generate::phase_log));
    all.push(on_fresh_units("version 2, every body of one record", BODY_LOGS_2, generate::body_log_2));
    all
}

struct Difference {
    case: Case,
    turn: u64,
    what: String,
}

struct Run {
    sums: Vec<Sums>,
    differing: Vec<u64>,
    first: Option<Difference>,
}

/// One family, on every processor. Where the time is up or a log differs, it ends early.
fn run_family(family: &Family, number: usize, options: &Options, until: Option<Instant>, run: &Mutex<Run>) {
    let (next, stop, clocks, shown) = (AtomicU64::new(0), AtomicBool::new(false), AtomicU64::new(0), AtomicU64::new(0));
    let threads = std::thread::available_parallelism().map_or(1, usize::from) as u64;
    let chunk = (family.logs / threads / 64).clamp(1, 256);
    let late = || until.is_some_and(|until| Instant::now() >= until);
    let terminal = std::io::stderr().is_terminal();
    let began = Instant::now();
    std::thread::scope(|scope| {
        for _ in 0..threads {
            scope.spawn(|| {
                let (mut sums, mut differing, mut lent) = (Sums::default(), 0, port::Lent::new());
                while !stop.load(Relaxed) && !late() {
                    let from = next.fetch_add(chunk, Relaxed);
                    for index in from..family.logs.min(from.saturating_add(chunk)) {
                        let case = (family.make)(index);
                        match compare::compare(&case, index, &mut lent) {
                            Ok(one) => {
                                clocks.fetch_add(one.clocks, Relaxed);
                                sums.add(&one);
                            }
                            Err(what) => {
                                sums.logs += 1;
                                differing += 1;
                                run.lock().expect("no thread panicked").first.get_or_insert(Difference { case, turn: index, what });
                                stop.store(!options.keep_going, Relaxed);
                            }
                        }
                        if stop.load(Relaxed) || late() {
                            break;
                        }
                    }
                    if from >= family.logs {
                        break;
                    }
                    // a line that updates, five times a second
                    let tick = began.elapsed().as_millis() as u64 / 200;
                    if terminal && shown.swap(tick, Relaxed) != tick {
                        let (done, clocks) = (next.load(Relaxed).min(family.logs), clocks.load(Relaxed) as f64 / 1e6);
                        eprint!("\r{}: {done} logs, {clocks:.0} million clocks, {:.0} s \x1b[K", family.name, began.elapsed().as_secs_f64());
                    }
                }
                let mut run = run.lock().expect("no thread panicked");
                run.sums[number].add(&sums);
                run.differing[number] += differing;
            });
        }
    });
    if terminal {
        eprint!("\r\x1b[K");
    }
}

fn grouped(number: u64) -> String {
    let digits = number.to_string();
    let mut out = String::new();
    for (at, digit) in digits.chars().enumerate() {
        if at > 0 && (digits.len() - at) % 3 == 0 {
            out.push(',');
        }
        out.push(digit);
    }
    out
}

fn print_table(families: &[Family], run: &Run) {
    println!("| family | logs | of them refused | records | clocks | frames | bytes compared | images compared | differing logs |");
    println!("|---|---:|---:|---:|---:|---:|---:|---:|---:|");
    let mut total = Sums::default();
    let row = |name: &str, sums: &Sums, differing: u64| {
        let cells = [sums.logs, sums.refused, sums.records, sums.clocks, sums.frames, sums.bytes, sums.images, differing].map(grouped);
        println!("| {name} | {} |", cells.join(" | "));
    };
    for (number, family) in families.iter().enumerate() {
        row(family.name, &run.sums[number], run.differing[number]);
        total.add(&run.sums[number]);
    }
    row("all", &total, run.differing.iter().sum());
}

/// The first difference, cut down, to a file and as records; an image that it is played on in a file beside it.
fn report(first: &Difference) {
    let small = compare::shrink(&first.case);
    let again = |turn| compare::compare(&small, turn, &mut port::Lent::new()).err();
    let what = again(first.turn).or_else(|| (0..20).find_map(again)).unwrap_or_else(|| first.what.clone());
    let file = std::env::temp_dir().join("difference.log");
    let file: std::path::PathBuf = std::env::var_os("DIFFERENCE").map_or(file, Into::into);
    let written = std::fs::write(&file, &small.log).and_then(|()| small.image.map_or(Ok(()), |image| std::fs::write(file.with_extension("image"), image)));
    match written {
        Ok(()) => println!("a difference, cut down to {} bytes, is in {}:", small.log.len(), file.display()),
        Err(error) => println!("a difference, cut down to {} bytes ({} could not be written: {error}):", small.log.len(), file.display()),
    }
    if let Some(image) = small.image {
        println!("  on the image {}", image.map(|byte| format!("{byte:02X}")).concat());
    }
    match log::parse(&small.log) {
        Ok(log) => {
            println!("  version {}, start {}", log.version, log.start);
            log.records.iter().for_each(|record| println!("  {record}"));
        }
        Err(refused) => println!("  {:02X?}, which documents 01 and 02 refuse with {} {}", small.log, refused.0, refused.1),
    }
    match small.also {
        Also::Parts { mixed: false, .. } => println!("  in parts through images"),
        Also::Parts { mixed: true, .. } => println!("  in parts of both versions through images"),
        _ => {}
    }
    println!("{what}");
}

/// One log: what both make of it, or where they differ.
fn one_log(case: Case) -> i32 {
    match compare::compare(&case, 0, &mut port::Lent::new()) {
        Err(what) => {
            report(&Difference { case, turn: 0, what });
            1
        }
        Ok(_) => {
            match case.image.map_or_else(|| original::play(&case.log), |image| original::play_from(&image, &case.log)) {
                Ok(answer) => besticoro::items(&answer.bytes).for_each(|item| println!("{item}")),
                Err(refused) => println!("refusal {} with {}", refused.0, refused.1),
            }
            println!("both the same");
            0
        }
    }
}

fn usage(error: &str) -> ! {
    eprintln!("{error}\nusage: ./differential [--logs N] [--seed S] [--minutes M] [--keep-going] [[--image FILE] --log FILE] [--oracle PATH]");
    std::process::exit(2)
}

fn read(file: &str) -> Vec<u8> {
    std::fs::read(file).unwrap_or_else(|error| usage(&format!("{file}: {error}")))
}

fn real(text: String) -> f64 {
    text.parse().unwrap_or_else(|_| usage(&format!("{text} is no number")))
}

/// An image of a file, which is taken.
fn read_image(file: &str) -> image::Image {
    let taken = read(file).try_into().ok().filter(|image: &image::Image| image::Reader::new().taken(image));
    taken.unwrap_or_else(|| usage(&format!("{file} is no image that is taken")))
}

/// An option that is a task of its own: its status.
fn task(word: &str, mut value: impl FnMut() -> String, options: &Options) -> i32 {
    let written = match word {
        "--log" => return one_log(Case { log: read(&value()), image: options.image, also: Also::Nothing }),
        "--acceptance" => return acceptance::run(options.seed, options.keep_going),
        "--days" => return days::run(real(value()), options.seed),
        "--record" => record::record(value().as_ref(), value().as_ref(), options.seed),
        "--residue" => record::residue(value().as_ref(), options.seed, 2),
        "--sample" => record::sample(value().as_ref(), options.seed, 10),
        _ => usage(&format!("{word} is no option")),
    };
    written.unwrap_or_else(|error| usage(&format!("{word}: {error}")));
    0
}

fn options() -> Options {
    let mut options = Options { image: None, logs: 120_000, seed: 1, minutes: None, keep_going: false };
    let mut words = std::env::args().skip(1);
    while let Some(word) = words.next() {
        let mut value = || words.next().unwrap_or_else(|| usage(&format!("{word} takes a value")));
        let number = |text: String| text.parse().unwrap_or_else(|_| usage(&format!("{text} is no number")));
        match word.as_str() {
            "--logs" => options.logs = number(value()),
            "--seed" => options.seed = number(value()),
            "--minutes" => options.minutes = Some(real(value())),
            "--keep-going" => options.keep_going = true,
            "--image" => options.image = Some(read_image(&value())),
            _ => std::process::exit(task(&word, value, &options)),
        }
    }
    options
}

fn main() {
    let options = options();
    let families = families(&options);
    let run = Mutex::new(Run { sums: vec![Sums::default(); families.len()], differing: vec![0; families.len()], first: None });
    let began = Instant::now();
    let random = FAMILIES.len() + FROM_IMAGES.len() + FAMILIES_2.len() + CASES_2.len();
    let share = options.minutes.map(|minutes| Duration::from_secs_f64(minutes * 60.0 / random as f64));
    for (number, family) in families.iter().enumerate() {
        // what is whole is played whole
        let until = share.filter(|_| family.logs == u64::MAX).map(|share| Instant::now() + share);
        run_family(family, number, &options, until, &run);
        if !options.keep_going && run.lock().expect("no thread panicked").first.is_some() {
            break;
        }
    }
    let run = run.into_inner().expect("no thread panicked");
    print_table(&families, &run);
    println!("\nseed {}, {:.0} s on {}", options.seed, began.elapsed().as_secs_f64(), std::env::consts::ARCH);
    std::io::stdout().flush().ok();
    if let Some(first) = &run.first {
        report(first);
        std::process::exit(1);
    }
}
