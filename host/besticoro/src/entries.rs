//! The guarded C entries of besticoro.h, and all that is unsafe about them.
use crate::Envelope;

#[rustfmt::skip]
extern "C" {
    fn besticoro_play_access_log_counted(log: *const u8, log_length: usize, out: *mut u8, out_length: usize, counts: *mut u64, counts_length: usize) -> u64;
    fn besticoro_make_image(start: u8, image: *mut u8, image_length: usize) -> u64;
    fn besticoro_play_from_image_counted(
        image: *const u8, image_length: usize, log: *const u8, log_length: usize,
        out: *mut u8, out_length: usize, after: *mut u8, after_length: usize, counts: *mut u64, counts_length: usize,
    ) -> u64;
    fn besticoro_import_vgm(vgm: *const u8, vgm_length: usize, log: *mut u8, log_length: usize) -> u64;
    fn besticoro_envelope_trigger(e: *mut Envelope) -> u64;
    fn besticoro_envelope_clock(e: *mut Envelope) -> u64;
}

/// The answer, and frames, clock calls and records.
pub fn play(log: &[u8], out: &mut [u8]) -> (u64, [u64; 3]) {
    let mut counts = [0; 3];
    // SAFETY: each pointer and length is a live slice's or array's own, the two written are borrowed for writing, so nothing overlaps; the entry is proved to touch nothing else and to end.
    let answer = unsafe { besticoro_play_access_log_counted(log.as_ptr(), log.len(), out.as_mut_ptr(), out.len(), counts.as_mut_ptr(), counts.len()) };
    (answer, counts)
}

/// The answer to a start byte, and the fresh unit's image where it is done.
pub fn make_image(start: u8, image: &mut [u8]) -> u64 {
    // SAFETY: pointer and length are a live slice's own, borrowed for writing; the entry is proved to touch nothing else and to end.
    unsafe { besticoro_make_image(start, image.as_mut_ptr(), image.len()) }
}

/// The answer, and frames, clock calls and records, of a log played on the unit of an image.
pub fn play_from(image: &[u8], log: &[u8], out: &mut [u8], after: &mut [u8]) -> (u64, [u64; 3]) {
    let mut counts = [0; 3];
    // SAFETY: as of `play`; the three written are borrowed for writing.
    let answer = unsafe {
        let (out_at, after_at) = (out.as_mut_ptr(), after.as_mut_ptr());
        let (image, log) = ((image.as_ptr(), image.len()), (log.as_ptr(), log.len()));
        besticoro_play_from_image_counted(image.0, image.1, log.0, log.1, out_at, out.len(), after_at, after.len(), counts.as_mut_ptr(), counts.len())
    };
    (answer, counts)
}

/// The answer to a VGM file, and its log where it is done.
pub fn import_vgm(vgm: &[u8], log: &mut [u8]) -> u64 {
    // SAFETY: each pointer and length is a live slice's own, the log is borrowed for writing, so nothing overlaps; the entry is proved to touch nothing else and to end.
    unsafe { besticoro_import_vgm(vgm.as_ptr(), vgm.len(), log.as_mut_ptr(), log.len()) }
}

/// A trigger, or else a clock, of an envelope.
pub fn step(e: &mut Envelope, trigger: bool) {
    // SAFETY: the envelope is borrowed for writing and laid out as C does, its bools are 0 or 1; the entries are proved to touch nothing else.
    unsafe { if trigger { besticoro_envelope_trigger(e) } else { besticoro_envelope_clock(e) } };
}
