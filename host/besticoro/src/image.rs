//! A unit kept as bytes, and taken up again.
use crate::{entries, refusal, Refusal, Rendering};
use std::borrow::Cow;

/// The bytes of an image.
pub const IMAGE_BYTES: usize = 164;

/// A unit's whole state as bytes, which mean the same on every machine. There is none but those that were made here or are taken.
///
/// ```
/// use besticoro::Image;
/// // power on; pulse 2 triggered; 100 clock calls
/// let first = [1, 1, 0, 4, 1, 0xFF, 0x26, 0x80, 0, 4, 1, 0xFF, 0x17, 0xF0, 0, 4, 1, 0xFF, 0x19, 0x87, 0, 5, 3, 0, 0, 0, 100];
/// // 100 clock calls more, and a read of FF26
/// let second = [1, 1, 0, 5, 3, 0, 0, 0, 100, 0, 3, 2, 0xFF, 0x26];
///
/// let (before, kept) = Image::fresh(1)?.render_to_vec(&first)?;
/// // the bytes go to a file, or to another host
/// let taken_up = Image::from_bytes(kept.as_bytes())?;
/// let (after, _) = taken_up.render_to_vec(&second)?;
///
/// // played at once the records make the same
/// let whole = besticoro::render_to_vec(&[&first[..], &second[2..]].concat())?;
/// assert_eq!([before.bytes(), after.bytes()].concat(), whole.bytes());
/// assert_eq!(before.frames_made() + after.frames_made(), whole.frames_made());
/// # Ok::<(), besticoro::Refusal>(())
/// ```
#[derive(Clone, Copy, Debug, PartialEq, Eq)]
pub struct Image([u8; IMAGE_BYTES]);

impl Image {
    /// A fresh unit's, by a log's start byte: bit 0 DMG, bit 1 the state after the boot program.
    pub fn fresh(start: u8) -> Result<Image, Refusal> {
        let mut image = [0; IMAGE_BYTES];
        refusal::judge(entries::make_image(start, &mut image), &[1, start])?;
        Ok(Image(image))
    }

    /// Bytes that were kept, where they are an image that is taken.
    pub fn from_bytes(bytes: &[u8]) -> Result<Image, Refusal> {
        let mut image = [0; IMAGE_BYTES];
        // a log without records leaves the unit as it is, and its image is the same bytes
        render_from(bytes, &[1, 0], &mut [], &mut image)?;
        Ok(Image(image))
    }

    /// The bytes to keep.
    pub fn as_bytes(&self) -> &[u8; IMAGE_BYTES] {
        &self.0
    }

    /// Plays a log's records on this unit into the front of `out`: what they made, and the unit after them. The log's start byte is judged and not used: the
    /// model is the image's. The version is the log's: a chain may have logs of both.
    pub fn render<'a>(&self, log: &[u8], out: &'a mut [u8]) -> Result<(Rendering<'a>, Image), Refusal> {
        let mut after = [0; IMAGE_BYTES];
        let rendering = render_from(&self.0, log, out, &mut after)?;
        Ok((rendering, Image(after)))
    }

    /// The bytes that a log's output needs from here. It costs by the log's records, not by their clock calls.
    pub fn bytes_needed(&self, log: &[u8]) -> Result<usize, Refusal> {
        match self.render(log, &mut []) {
            Ok(_) => Ok(0),
            Err(Refusal::NoRoom { needed }) => Ok(needed),
            Err(refusal) => Err(refusal),
        }
    }

    /// The same as `render`, into memory of its own.
    pub fn render_to_vec(&self, log: &[u8]) -> Result<(Rendering<'static>, Image), Refusal> {
        let mut out = vec![0; self.bytes_needed(log)?];
        let (Rendering { frames, clock_calls, records, .. }, after) = self.render(log, &mut out)?;
        Ok((Rendering { bytes: Cow::Owned(out), frames, clock_calls, records }, after))
    }
}

/// Plays a log on the unit of an image's bytes; the image after it goes to the front of `after`. With a refusal `out` and `after` stay as they were.
pub fn render_from<'a>(image: &[u8], log: &[u8], out: &'a mut [u8], after: &mut [u8]) -> Result<Rendering<'a>, Refusal> {
    let (answer, [frames, clock_calls, records]) = entries::play_from(image, log, out, after);
    let written = refusal::judge(answer, log)?;
    Ok(Rendering { bytes: Cow::Borrowed(&out[..written]), frames, clock_calls, records })
}

#[cfg(test)]
mod tests {
    use super::{render_from, Image, IMAGE_BYTES};
    use crate::{BadStart, Refusal};

    const READ: [u8; 7] = [1, 0, 0, 3, 2, 0xFF, 0x26];

    #[test]
    fn each_fresh_unit() {
        let firsts = [0, 1, 2, 3].map(|start| {
            let image = Image::fresh(start).expect("a start byte up to 3");
            let (rendering, after) = image.render_to_vec(&READ).expect("a right log");
            assert_eq!(after, image, "a read changes nothing");
            (rendering.bytes()[1], image.as_bytes()[IMAGE_BYTES - 1], image.as_bytes()[0])
        });
        assert_eq!(firsts, [(0x70, 0, 1), (0x70, 1, 1), (0xF1, 0, 1), (0xF1, 1, 1)]);
        assert_eq!(Image::fresh(4), Err(Refusal::BadStart(BadStart::Start)));
    }

    #[test]
    fn an_image_is_taken_or_not() {
        let kept = *Image::fresh(3).expect("a start byte").as_bytes();
        assert_eq!(Image::from_bytes(&kept).map(|image| *image.as_bytes()), Ok(kept));
        assert_eq!(Image::from_bytes(&kept[1..]), Err(Refusal::WrongImage));
        assert_eq!(Image::from_bytes(&[&kept[..], &[0]].concat()), Err(Refusal::WrongImage));
        let mut other_models = kept;
        other_models[IMAGE_BYTES - 1] = 0;
        let wrong = Image::from_bytes(&other_models).expect_err("the model stands twice");
        assert_eq!(wrong.to_string(), "the image is not one that is taken: its version, its length or a field is wrong");
    }

    #[test]
    fn a_chain_of_both_versions() {
        // power on and pulse 2 with a length of 1; 1,024 calls that set the divider's bit; one with which it falls, FF26 read before and after
        let mut first = vec![1, 1, 0, 4, 1, 0xFF, 0x26, 0x80, 0, 4, 1, 0xFF, 0x16, 0x3F, 0, 4, 1, 0xFF, 0x17, 0xF0, 0, 4, 1, 0xFF, 0x19, 0xC0];
        first.extend([0, 5, 3, 0, 0x10, 4, 0]);
        let second = [2, 1, 0, 3, 2, 0xFF, 0x26, 0, 6, 3, 0, 0x1F, 0x3F, 0, 2, 0, 3, 2, 0xFF, 0x26];
        let (_, kept) = Image::fresh(1).and_then(|image| image.render_to_vec(&first)).expect("a right log of version 1");
        let (made, _) = kept.render_to_vec(&second).expect("a right log of version 2");
        let reads: Vec<u8> = made.items().filter_map(|item| if let crate::Item::Read(byte) = item { Some(byte) } else { None }).collect();
        assert_eq!(reads, [0xF2, 0xF0]);
    }

    #[test]
    fn room_and_order() {
        let image = Image::fresh(1).expect("a start byte");
        let (mut out, mut after) = ([9; 2], [9; IMAGE_BYTES + 1]);
        let short = render_from(image.as_bytes(), &READ, &mut out, &mut after[..163]).expect_err("no room for the image");
        assert_eq!((short, out, after), (Refusal::NoRoomForImage { needed: 164 }, [9; 2], [9; 165]));
        assert_eq!(short.to_string(), "the place for the image is shorter than the 164 bytes needed");
        assert_eq!(render_from(image.as_bytes(), &READ, &mut out[..1], &mut after[..163]).err(), Some(Refusal::NoRoom { needed: 2 }));
        assert_eq!(render_from(&[], &[], &mut out, &mut after).err(), Some(Refusal::WrongImage));
        assert_eq!(render_from(image.as_bytes(), &[], &mut out, &mut after).err(), Some(Refusal::BadStart(BadStart::TooShort)));
        assert_eq!(render_from(image.as_bytes(), &READ, &mut out, &mut after).map(|r| (r.bytes().to_vec(), r.records())), Ok((vec![0x52, 0x70], 1)));
        assert_eq!((&after[..164], after[164]), (&image.as_bytes()[..], 9), "past 164 bytes it stays");
    }
}
