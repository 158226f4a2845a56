//! The port's entries for images, lent memory of any length, and whether all that they must leave alone stayed.
use crate::image::{Image, IMAGE_BYTES};
use crate::original;

#[rustfmt::skip]
extern "C" {
    fn besticoro_make_image(start: u8, image: *mut u8, image_length: usize) -> u64;
    fn play_from_image(
        image: *const u8, image_length: usize, log: *const u8, log_length: usize, out: *mut u8, out_length: usize, after: *mut u8, after_length: usize,
    ) -> u64;
    fn besticoro_play_from_image_counted(
        image: *const u8, image_length: usize, log: *const u8, log_length: usize,
        out: *mut u8, out_length: usize, after: *mut u8, after_length: usize, counts: *mut u64, counts_length: usize,
    ) -> u64;
}

pub const FILL: u8 = 0xA5;
const FILLED_COUNT: u64 = u64::from_ne_bytes([FILL; 8]);
// Bytes past the output that must stay: room for three frames too many.
pub const GUARD: usize = 128;
// The longest place for an image, and bytes past it that must stay.
const PLACE: usize = 400;

/// What a call told: its answer, and whether all past what it was to write stayed as it was.
#[derive(Clone, Copy, PartialEq, Eq)]
pub struct Told {
    pub answer: u64,
    pub stayed: bool,
}

impl std::fmt::Debug for Told {
    fn fmt(&self, f: &mut std::fmt::Formatter) -> std::fmt::Result {
        let stayed = if self.stayed { "" } else { " and something else touched" };
        write!(f, "refusal {} with {}{stayed}", self.answer >> 48, self.answer & 0xFFFF_FFFF_FFFF)
    }
}

/// What must be told of a refusal.
pub fn refused(refusal: u64, number: usize) -> Told {
    Told { answer: refusal << 48 | number as u64, stayed: true }
}

/// What must be told of a call that is done, with so many bytes.
pub fn done(bytes: usize) -> Told {
    Told { answer: bytes as u64, stayed: true }
}

static FILLED: [u8; 4096] = [FILL; 4096];

/// Whether every byte is as it was filled. Compared in pieces, which costs a tenth of one by one.
pub fn filled(bytes: &[u8]) -> bool {
    bytes.chunks(FILLED.len()).all(|piece| *piece == FILLED[..piece.len()])
}

/// What is lent: the output, the place for an image, and counts, each with room past what is said to be theirs. Beside them the original's four fresh images.
pub struct Lent {
    pub out: Vec<u8>,
    pub after: [u8; PLACE],
    pub counts: [u64; 4],
    pub fresh: [Image; 4],
}

impl Lent {
    pub fn new() -> Lent {
        let fresh = [0, 1, 2, 3].map(|start| original::image(&original::make(start)));
        Lent { out: Vec::new(), after: [FILL; PLACE], counts: [FILLED_COUNT; 4], fresh }
    }

    /// Whether all stayed but so many bytes, so much of an image and so many counts.
    fn stayed(&self, written: usize, image: usize, counts: usize) -> bool {
        filled(&self.out[written..]) && filled(&self.after[image..]) && self.counts[counts..].iter().all(|&count| count == FILLED_COUNT)
    }

    /// Plays a log on an image into so many bytes of output and of place for the image after it, by the guarded entry with counts, or by the plain one without.
    pub fn play(&mut self, image: &[u8], log: &[u8], room: usize, place: usize, counted: bool) -> Told {
        self.out.clear();
        self.out.resize(room + GUARD, FILL);
        (self.after, self.counts) = ([FILL; PLACE], [FILLED_COUNT; 4]);
        let (read, written) = ((image.as_ptr(), image.len(), log.as_ptr(), log.len()), (self.out.as_mut_ptr(), self.after.as_mut_ptr()));
        // SAFETY: each pointer is a live slice's, vector's or array's own and no length is longer; nothing overlaps. The default float environment stands.
        let answer = unsafe {
            if counted {
                besticoro_play_from_image_counted(read.0, read.1, read.2, read.3, written.0, room, written.1, place, self.counts.as_mut_ptr(), 3)
            } else {
                play_from_image(read.0, read.1, read.2, read.3, written.0, room, written.1, place)
            }
        };
        let done = answer >> 48 == 0;
        let (bytes, image) = if done { ((answer as usize).min(room), IMAGE_BYTES.min(place)) } else { (0, 0) };
        Told { answer, stayed: self.stayed(bytes, image, if done && counted { 3 } else { 0 }) }
    }

    /// A fresh unit's image into a place of so many bytes.
    pub fn make(&mut self, start: u8, place: usize) -> Told {
        self.after = [FILL; PLACE];
        // SAFETY: the place is this array's own, and no longer.
        let answer = unsafe { besticoro_make_image(start, self.after.as_mut_ptr(), place) };
        Told { answer, stayed: filled(&self.after[if answer >> 48 == 0 { IMAGE_BYTES.min(place) } else { 0 }..]) }
    }

    pub fn image_after(&self) -> &[u8] {
        &self.after[..IMAGE_BYTES]
    }
}
