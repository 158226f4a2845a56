//! thread FOLDER: threads that set their float modes themselves and play at once through the crate besticoro. Ends with 1 where bytes are not the original's or a mode does
//! not stand, and where the unguarded entry gives the original's bytes in a thread with flush-to-zero too: then nothing was tried.
use std::arch::asm;

extern "C" {
    fn play_access_log(log: *const u8, log_length: usize, out: *mut u8, out_length: usize) -> u64;
}

#[cfg(target_arch = "x86_64")]
const MODES: [(&str, u64); 5] = [("the default", 0x1F80), ("flush-to-zero", 0x9F80), ("both flushed", 0x9FC0), ("rounding up, flushed", 0xDF80), ("traps unmasked, flags set", 0x003F)];
#[cfg(target_arch = "aarch64")]
const MODES: [(&str, u64); 4] = [("the default", 0), ("flush-to-zero", 1 << 24), ("rounding up, flushed", 1 << 24 | 1 << 22), ("rounding to zero", 3 << 22)];

fn mode() -> u64 {
    let mut now = 0u64;
    // SAFETY: reads a register, on x86-64 into this function's own variable.
    #[cfg(target_arch = "x86_64")]
    unsafe { asm!("stmxcsr [{}]", in(reg) &mut now) };
    #[cfg(target_arch = "aarch64")]
    unsafe { asm!("mrs {}, fpcr", out(reg) now) };
    now
}

fn set_mode(mode: u64) {
    // SAFETY: this thread does no float arithmetic of its own until the default is set again.
    #[cfg(target_arch = "x86_64")]
    unsafe { asm!("ldmxcsr [{}]", in(reg) &mode) };
    #[cfg(target_arch = "aarch64")]
    unsafe { asm!("msr fpcr, {}", in(reg) mode) };
}

fn said(same: bool) -> &'static str {
    if same { "the original's" } else { "OTHERS" }
}

/// The folder's files: a log and what the original makes of it, its state then, and a log played on that, with what it makes and the state after it.
struct Files {
    log: Vec<u8>,
    original: Vec<u8>,
    image: Vec<u8>,
    later: Vec<u8>,
    later_original: Vec<u8>,
    later_image: Vec<u8>,
}

// Whether playing at once, and taking up the image, give the original's bytes and state. Called in any mode: nothing here but the calls has floats.
fn plays(files: &Files, out: &mut [u8], later_out: &mut [u8]) -> bool {
    let whole = besticoro::render(&files.log, out).is_ok_and(|rendering| rendering.bytes() == files.original);
    let Ok(image) = besticoro::Image::from_bytes(&files.image) else { return false };
    let later = image.render(&files.later, later_out);
    whole && later.is_ok_and(|(rendering, after)| rendering.bytes() == files.later_original && after.as_bytes()[..] == files.later_image)
}

// Plays in a mode: whether the bytes are the original's, and whether the mode stood.
fn play(files: &Files, wanted: u64) -> (bool, bool) {
    let (mut out, mut later_out) = (vec![0; files.original.len()], vec![0; files.later_original.len()]);
    set_mode(wanted);
    let same = plays(files, &mut out, &mut later_out);
    let after = mode();
    set_mode(MODES[0].1);
    (same, after == wanted)
}

// The unguarded entry in a mode: whether its bytes are the original's.
fn play_unguarded(log: &[u8], original: &[u8], mode: u64) -> bool {
    let mut out = vec![0; original.len()];
    set_mode(mode);
    // SAFETY: each pointer and length is a live slice's own, and the two do not overlap.
    unsafe { play_access_log(log.as_ptr(), log.len(), out.as_mut_ptr(), out.len()) };
    set_mode(MODES[0].1);
    out == original
}

fn main() {
    let folder = std::env::args().nth(1).expect("thread FOLDER");
    let read = |name: &str| std::fs::read(format!("{folder}/{name}")).expect("a residue log and its bytes");
    let (log, original, image) = (read("0.log"), read("0.bytes"), read("0.image"));
    let files = Files { log, original, image, later: read("0.later"), later_original: read("0.later_bytes"), later_image: read("0.later_image") };
    let mut wrong = 0;
    std::thread::scope(|scope| {
        let files = &files;
        // what the guard is for, by the first two modes: the default and flush-to-zero
        let [plain, flushed] = [MODES[0].1, MODES[1].1].map(|mode| scope.spawn(move || play_unguarded(&files.log, &files.original, mode)).join().expect("no thread panicked"));
        wrong += u32::from(!plain) + u32::from(flushed);
        println!("unguarded in a Rust thread: {} in the default, {} with flush-to-zero", said(plain), said(flushed));
        let threads = MODES.map(|(name, mode)| (name, scope.spawn(move || (0..20).map(|_| play(files, mode)).fold((true, true), |a, b| (a.0 & b.0, a.1 & b.1)))));
        for (name, thread) in threads {
            let (same, stood) = thread.join().expect("no thread panicked");
            wrong += u32::from(!same) + u32::from(!stood);
            println!("a Rust thread, {name}: the bytes are {}, the mode {}", said(same), if stood { "stands" } else { "DOES NOT STAND" });
        }
    });
    println!("{} Rust threads at once, each in a mode of its own: {wrong} wrong", MODES.len());
    std::process::exit(i32::from(wrong > 0));
}
