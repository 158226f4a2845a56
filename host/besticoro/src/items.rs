//! The output's bytes as items.
use std::fmt;

/// Whose sample: a channel's, or the sum of all four.
#[derive(Clone, Copy, Debug, PartialEq, Eq)]
pub enum Channel {
    Pulse1,
    Pulse2,
    Wave,
    Noise,
    All,
}

#[derive(Clone, Copy, Debug, PartialEq, Eq)]
pub enum Side {
    Right,
    Left,
}

/// A frame: ten samples, kept as the bit patterns that the player made.
#[derive(Clone, Copy, Debug, PartialEq, Eq)]
pub struct Frame([u32; 10]);

impl Frame {
    /// Right and left of pulse 1, pulse 2, wave, noise and all.
    pub fn patterns(&self) -> [u32; 10] {
        self.0
    }

    pub fn pattern(&self, channel: Channel, side: Side) -> u32 {
        self.0[channel as usize * 2 + side as usize]
    }

    /// The sample, exactly; subnormals too, as long as no arithmetic flushes them.
    pub fn sample(&self, channel: Channel, side: Side) -> f32 {
        f32::from_bits(self.pattern(channel, side))
    }
}

/// One thing that playing made: a frame, a read's byte, or both PCM bytes.
#[derive(Clone, Copy, Debug, PartialEq, Eq)]
pub enum Item {
    Frame(Frame),
    Read(u8),
    Pcm(u8, u8),
}

impl fmt::Display for Item {
    fn fmt(&self, f: &mut fmt::Formatter) -> fmt::Result {
        match self {
            Item::Frame(frame) => {
                write!(f, "F")?;
                frame.0.iter().try_for_each(|word| write!(f, " {word:08X}"))
            }
            Item::Read(byte) => write!(f, "R {byte:02X}"),
            Item::Pcm(low, high) => write!(f, "P {low:02X} {high:02X}"),
        }
    }
}

/// The items of an output's bytes, from wherever they come.
pub fn items(bytes: &[u8]) -> Items<'_> {
    Items(bytes)
}

/// The items of an output, in order. It ends at the first byte that begins none.
#[derive(Clone, Debug)]
pub struct Items<'a>(&'a [u8]);

impl Iterator for Items<'_> {
    type Item = Item;

    fn next(&mut self) -> Option<Item> {
        let (item, length) = match *self.0 {
            [0x46, ref rest @ ..] if rest.len() >= 40 => {
                let mut words = [0; 10];
                for (word, bytes) in words.iter_mut().zip(rest.chunks_exact(4)) {
                    *word = u32::from_be_bytes([bytes[0], bytes[1], bytes[2], bytes[3]]);
                }
                (Item::Frame(Frame(words)), 41)
            }
            [0x52, byte, ..] => (Item::Read(byte), 2),
            [0x50, low, high, ..] => (Item::Pcm(low, high), 3),
            _ => return None,
        };
        self.0 = &self.0[length..];
        Some(item)
    }
}

#[cfg(test)]
#[test]
fn each_kind() {
    let mut bytes = vec![0x52, 0xF0, 0x50, 1, 2, 0x46];
    bytes.extend((0..10).flat_map(|word: u32| (0x3F80_0000 + word).to_be_bytes()));
    let lines: Vec<String> = items(&bytes).map(|item| item.to_string()).collect();
    assert_eq!(lines, ["R F0", "P 01 02", "F 3F800000 3F800001 3F800002 3F800003 3F800004 3F800005 3F800006 3F800007 3F800008 3F800009"]);
    let Some(Item::Frame(frame)) = items(&bytes).last() else { panic!("the frame is last") };
    assert_eq!((frame.pattern(Channel::Wave, Side::Left), frame.sample(Channel::Pulse1, Side::Right)), (0x3F80_0005, 1.0));
    assert_eq!(items(&bytes[..45]).count(), 2, "a frame cut short is none");
}
