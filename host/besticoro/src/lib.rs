//! Plays logs of Game Boy sound registers by the proved player, and imports VGM files as such logs, over the guarded C entries.
//!
//! The samples are the same bits in whatever float environment the calling thread is, and it gets its own back.
//!
//! ```
//! // a log: version 1, a DMG unit; power on (FF26 = 80), 48 clock calls, a read of FF26
//! let log = [1, 1, 0, 4, 1, 0xFF, 0x26, 0x80, 0, 5, 3, 0, 0, 0, 48, 0, 3, 2, 0xFF, 0x26];
//! let rendering = besticoro::render_to_vec(&log)?;
//! assert_eq!((rendering.frames_made(), rendering.clock_calls(), rendering.records()), (2, 48, 3));
//! for frame in rendering.frames() {
//!     assert_eq!(frame.sample(besticoro::Channel::All, besticoro::Side::Left), 0.0);
//! }
//!
//! // the same in version 2: the clock record has a phase after its divider, which goes up by 1 every 64 calls
//! let running = [2, 1, 0, 4, 1, 0xFF, 0x26, 0x80, 0, 6, 3, 0, 0, 0, 0, 48, 0, 3, 2, 0xFF, 0x26];
//! assert_eq!(besticoro::render_to_vec(&running)?.bytes(), rendering.bytes());
//!
//! // a wrong one, and what is said of it
//! let wrong = besticoro::render_to_vec(&[1, 1, 0, 5, 3, 0, 0, 0, 0]).unwrap_err();
//! assert_eq!(wrong.to_string(), "byte 7: the record's count is 0 or above 16,384");
//! # Ok::<(), besticoro::Refusal>(())
//! ```
mod entries;
mod envelope;
mod image;
mod items;
mod refusal;
mod vgm;

pub use envelope::Envelope;
pub use image::{render_from, Image, IMAGE_BYTES};
pub use items::{items, Channel, Frame, Item, Items, Side};
pub use refusal::{BadStart, Fault, Refusal};
pub use vgm::{import_vgm, import_vgm_into, BadHeader, CommandFault};

use std::borrow::Cow;

/// The longest log that is not refused for its length, and that an import makes.
pub const LONGEST_LOG: usize = 65_536;

/// What playing a log made: the output's bytes, and how much of each thing.
#[derive(Clone, Debug, PartialEq, Eq)]
pub struct Rendering<'a> {
    bytes: Cow<'a, [u8]>,
    frames: u64,
    clock_calls: u64,
    records: u64,
}

impl<'a> Rendering<'a> {
    /// The bytes written, as the access log's rules have them: what an archive keys by.
    pub fn bytes(&self) -> &[u8] {
        &self.bytes
    }

    /// The same, taken out; copied where they stand in a lent output.
    pub fn into_bytes(self) -> Vec<u8> {
        self.bytes.into_owned()
    }

    pub fn frames_made(&self) -> u64 {
        self.frames
    }

    /// The clock calls that the records asked for.
    pub fn clock_calls(&self) -> u64 {
        self.clock_calls
    }

    pub fn records(&self) -> u64 {
        self.records
    }

    /// Everything made, in order: frames, reads, PCM reads.
    pub fn items(&self) -> Items<'_> {
        items(&self.bytes)
    }

    /// The frames alone, in order.
    pub fn frames(&self) -> impl Iterator<Item = Frame> + '_ {
        self.items().filter_map(|item| match item {
            Item::Frame(frame) => Some(frame),
            _ => None,
        })
    }
}

/// Plays a log into the front of `out`; bytes of `out` past those written, or with a refusal all of them, stay as they were.
pub fn render<'a>(log: &[u8], out: &'a mut [u8]) -> Result<Rendering<'a>, Refusal> {
    let (answer, [frames, clock_calls, records]) = entries::play(log, out);
    let written = refusal::judge(answer, log)?;
    Ok(Rendering { bytes: Cow::Borrowed(&out[..written]), frames, clock_calls, records })
}

/// The bytes that a log's output needs. It costs by the log's records, not by their clock calls.
pub fn bytes_needed(log: &[u8]) -> Result<usize, Refusal> {
    match render(log, &mut []) {
        Ok(_) => Ok(0),
        Err(Refusal::NoRoom { needed }) => Ok(needed),
        Err(refusal) => Err(refusal),
    }
}

/// Plays a log into memory of its own: 41 bytes a frame, at most 264,491,123 for the log that makes the most.
pub fn render_to_vec(log: &[u8]) -> Result<Rendering<'static>, Refusal> {
    let mut out = vec![0; bytes_needed(log)?];
    let Rendering { frames, clock_calls, records, .. } = render(log, &mut out)?;
    Ok(Rendering { bytes: Cow::Owned(out), frames, clock_calls, records })
}
