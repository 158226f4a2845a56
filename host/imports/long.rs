//! Long files: the time goes by the length, no memory is taken, and no number comes round.
use crate::entry::{done, import, refused};
use crate::generate::file;
use std::time::Instant;

/// The two lengths that are timed beside each other, and how many times slower the longer one may be; up to a tenth of a second nothing is said of it.
const LENGTHS: [usize; 2] = [7_000_000, 70_000_000];
const SLOWER: f64 = 20.0;
const SECONDS: f64 = 0.1;
/// The KB that a call may seem to take: the system counts pages late.
const LATE: u64 = 256;

/// A number of KB that the system has of this process.
fn memory(name: &str) -> u64 {
    let status = std::fs::read_to_string("/proc/self/status").expect("the system says what memory is used");
    let line = status.lines().find(|line| line.starts_with(name)).expect("a line of that name");
    line.split_whitespace().nth(1).and_then(|number| number.parse().ok()).expect("a number of KB")
}

/// What a file came to: its bytes, the fastest call in seconds, the KB that memory grew by, and whether answer and place were as wanted.
struct Came {
    bytes: usize,
    seconds: f64,
    grown: u64,
    right: bool,
}

/// Imports a file three times, into no place where a refusal is wanted; else the log must be the first write alone.
fn come(file: &[u8], wanted: u64) -> Came {
    let log: &[u8] = if wanted >> 48 == 0 { &[2, 1, 0, 4, 1, 0xFF, 0x26, 0x80] } else { &[] };
    let (mut seconds, mut right) = (f64::MAX, true);
    // the peak of memory begins anew where the system lets it; without that it may be that of a file before
    std::fs::write("/proc/self/clear_refs", "5").ok();
    let before = memory("VmRSS");
    for _ in 0..3 {
        let mut place = vec![0xEE; log.len()];
        let began = Instant::now();
        right &= import(file, &mut place) == wanted && place == log;
        seconds = seconds.min(began.elapsed().as_secs_f64());
    }
    Came { bytes: file.len(), seconds, grown: memory("VmHWM").saturating_sub(before), right }
}

/// One command over and over in a file of about so many bytes, then its last bytes. Room for it is taken once, so that the peak of memory is the file.
fn repeated(command: &[u8], bytes: usize, last: &[u8]) -> Vec<u8> {
    let many = bytes / command.len();
    let mut whole = Vec::with_capacity(0x84 + many * command.len() + last.len());
    whole.extend(file(&[]));
    (0..many).for_each(|_| whole.extend(command));
    whole.extend(last);
    whole
}

/// Prints a file's row; whether it is right.
fn row(name: &str, came: &Came, right: bool) -> bool {
    let speed = came.bytes as f64 / 1e6 / came.seconds;
    println!("| {name} | {} | {:.3} | {speed:.0} | {} | {} |", came.bytes, came.seconds, came.grown, u8::from(!right));
    right
}

/// Seven and seventy million bytes of a command: the answers, the memory that each takes, and the times beside each other.
fn both_lengths(name: &str, command: &[u8], last: &[u8], wanted: impl Fn(usize) -> u64) -> bool {
    let came = LENGTHS.map(|bytes| {
        let file = repeated(command, bytes, last);
        come(&file, wanted(file.len()))
    });
    let in_time = came[1].seconds <= SECONDS.max(SLOWER * came[0].seconds);
    let right = [came[0].right && came[0].grown <= LATE, came[1].right && came[1].grown <= LATE && in_time];
    row(name, &came[0], right[0]) & row(name, &came[1], right[1])
}

/// A log of 2^32 + 8 bytes: 55,125 samples are 80 records, 11,025 are 16. A count in 32 bits would come to 8.
fn past_four_bytes() -> bool {
    let file = repeated(&[0x61, 0x55, 0xD7], 6_710_886 * 3, &[0x61, 0x11, 0x2B, 0x61, 0x11, 0x2B, 0x66]);
    let came = come(&file, refused(11, 0).answer);
    row("a log of 2^32 + 8 bytes", &came, came.right && came.grown <= LATE)
}

/// Whether all long files are answered rightly, in time, and without memory.
pub fn run() -> bool {
    println!("| long file | bytes | seconds | MB a second | KB of memory | differing |\n|---|---:|---:|---:|---:|---:|");
    let counts = past_four_bytes();
    let waits = both_lengths("waits of 0", &[0x61, 0, 0], &[0x66], |_| done(8).answer);
    let wrong = both_lengths("the longest waits, then a wrong command", &[0x61, 0xFF, 0xFF], &[0x67], |bytes| refused(10, bytes - 1).answer);
    let writes = both_lengths("writes", &[0xB3, 0x13, 0x55], &[0x66], |_| refused(11, 0).answer);
    println!();
    counts && waits && wrong && writes
}
