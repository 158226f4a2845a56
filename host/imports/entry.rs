//! The port's entries, lent memory of any length, and whether all that they must leave alone stayed.

extern "C" {
    fn import_vgm(vgm: *const u8, vgm_length: usize, log: *mut u8, log_length: usize) -> u64;
    fn besticoro_import_vgm(vgm: *const u8, vgm_length: usize, log: *mut u8, log_length: usize) -> u64;
    fn play_access_log(log: *const u8, log_length: usize, out: *mut u8, out_length: usize) -> u64;
    fn play_access_log_counted(log: *const u8, log_length: usize, out: *mut u8, out_length: usize, counts: *mut u64, counts_length: usize) -> u64;
}

/// Bytes before and after lent memory that must stay.
const GUARD: usize = 128;
/// The longest place for a log that is lent.
pub const LONGEST_PLACE: usize = 65536 + 4096;

/// An import's answer, and whether all but the bytes that it was to write stayed as it was.
#[derive(Clone, Copy, PartialEq, Eq)]
pub struct Told {
    pub answer: u64,
    pub stayed: bool,
}

impl std::fmt::Debug for Told {
    fn fmt(&self, f: &mut std::fmt::Formatter) -> std::fmt::Result {
        let stayed = if self.stayed { "" } else { " and something else touched" };
        write!(f, "refusal {} with {}{stayed}", self.answer >> 48, self.answer & 0xFFFF_FFFF_FFFF)
    }
}

/// What must be told of a refusal.
pub fn refused(refusal: u64, number: usize) -> Told {
    Told { answer: refusal << 48 | number as u64, stayed: true }
}

/// What must be told of a call that is done, with so many bytes.
pub fn done(bytes: usize) -> Told {
    refused(0, bytes)
}

/// The answer to a file into a place, by the plain entry. The place is no part of the file.
pub fn import(file: &[u8], place: &mut [u8]) -> u64 {
    // SAFETY: pointers and lengths are live slices' own, the one written is borrowed for writing.
    unsafe { import_vgm(file.as_ptr(), file.len(), place.as_mut_ptr(), place.len()) }
}

/// The answer to a file into a place, by the guarded entry.
fn import_guarded(file: &[u8], place: &mut [u8]) -> u64 {
    // SAFETY: as of `import`.
    unsafe { besticoro_import_vgm(file.as_ptr(), file.len(), place.as_mut_ptr(), place.len()) }
}

/// The answer to a log into an output, by the entry without counts.
pub fn play(log: &[u8], out: &mut [u8]) -> u64 {
    // SAFETY: as of `import`. The default float environment stands.
    unsafe { play_access_log(log.as_ptr(), log.len(), out.as_mut_ptr(), out.len()) }
}

/// The answer to a log into an output, and frames, clock calls and records.
pub fn play_counted(log: &[u8], out: &mut [u8]) -> (u64, [u64; 3]) {
    let mut counts = [0; 3];
    // SAFETY: as of `play`; the counts are this function's own.
    let answer = unsafe { play_access_log_counted(log.as_ptr(), log.len(), out.as_mut_ptr(), out.len(), counts.as_mut_ptr(), 3) };
    (answer, counts)
}

/// What is lent: a file and a place for a log, each among bytes that must stay.
pub struct Lent {
    pattern: Vec<u8>,
    input: Vec<u8>,
    space: Vec<u8>,
    front: usize,
}

impl Lent {
    pub fn new() -> Lent {
        // no two neighbours alike, nor any short row that comes again soon
        let pattern = (0..(LONGEST_PLACE + 3 * GUARD) as u64).map(|at| (at.wrapping_mul(0x9E37_79B9_7F4A_7C15) >> 29) as u8).collect();
        Lent { pattern, input: Vec::new(), space: Vec::new(), front: GUARD }
    }

    /// Imports a file into a place of so many bytes, at any alignment by turns; one turn in three by the guarded entry.
    pub fn import(&mut self, file: &[u8], room: usize, turn: u64) -> Told {
        self.front = GUARD + turn as usize % 8;
        // what lies past the file's end would complete a command that is cut short, and end the data
        let past = [[0x66; GUARD], [0x00; GUARD], [0x66; GUARD], [0x70; GUARD]][turn as usize % 4];
        self.input.clear();
        self.input.extend(&self.pattern[..self.front]);
        self.input.extend(file);
        self.input.extend(past);
        self.space.clear();
        self.space.extend(&self.pattern[..self.front + room + GUARD]);
        let lent = self.front..self.front + file.len();
        let entry = if turn % 3 == 0 { import_guarded } else { import };
        let answer = entry(&self.input[lent.clone()], &mut self.space[self.front..self.front + room]);
        let written = if answer >> 48 == 0 { (answer as usize).min(room) } else { 0 };
        let read = self.input[..lent.start] == self.pattern[..lent.start] && self.input[lent.clone()] == *file && self.input[lent.end..] == past;
        let (before, after) = (self.front, self.front + written);
        let place = self.space[..before] == self.pattern[..before] && self.space[after..] == self.pattern[after..self.space.len()];
        Told { answer, stayed: read && place }
    }

    /// The first bytes of the place.
    pub fn log(&self, length: usize) -> &[u8] {
        &self.space[self.front..self.front + length]
    }
}
