//! Images as request 2026-01 of document 02 has them: the fields by name, which images are taken, and random ones that are. Written from documents 01 and
//! 02 and the order of the original's structures alone.
use crate::generate::Random;

/// The bytes of an image: version, two bytes of length, and the fields.
pub const IMAGE_BYTES: usize = 164;
pub type Image = [u8; IMAGE_BYTES];

/// Working clocks from frame to frame: the f64 nearest to 1048576/44100.
const N: f64 = 1_048_576.0 / 44_100.0;
/// A unit of the sample counter.
pub const UNIT: f64 = 1.0 / (1u64 << 48) as f64;

/// What a field may hold.
#[derive(Clone, Copy, PartialEq, Eq)]
pub enum Range {
    /// From 0 up to a number.
    UpTo(u64),
    Exactly(u64),
    /// An f32 without a sign, at most 1.
    Capacitor,
    /// An f64 without a sign, a whole number of units below N.
    SampleCounter,
    /// From -1 to 7 in a byte.
    Position,
    /// That of the volume, the byte before it, or 0 at volume 0.
    Shift,
}

/// A field: its name, its place in the image, its bytes.
pub struct Field {
    pub name: String,
    pub at: usize,
    pub bytes: usize,
    pub range: Range,
}

/// A list under way: each field stands after the one before it.
struct Fields(Vec<Field>);

impl Fields {
    fn put(&mut self, part: &str, name: &str, bytes: usize, range: Range) {
        let at = self.0.last().map_or(0, |field| field.at + field.bytes);
        self.0.push(Field { name: format!("{part}{name}"), at, bytes, range });
    }

    fn flags(&mut self, part: &str, names: &[&str]) {
        names.iter().for_each(|name| self.put(part, name, 1, Range::UpTo(1)));
    }

    /// Converter and length record.
    fn group(&mut self, part: &str, maximum: u64) {
        self.put(part, "capacitor", 4, Range::Capacitor);
        self.put(part, "max_length", 2, Range::Exactly(maximum));
        self.put(part, "length", 2, Range::UpTo(maximum));
        self.put(part, "current_counter", 2, Range::UpTo(maximum));
        self.flags(part, &["counter_decrease_enable"]);
    }

    fn envelope(&mut self, part: &str) {
        self.put(part, "starting_volume", 1, Range::UpTo(15));
        self.put(part, "current_volume", 1, Range::UpTo(15));
        self.flags(part, &["sweep_increase"]);
        self.put(part, "period", 1, Range::UpTo(7));
        self.flags(part, &["envelope_can_run"]);
        self.put(part, "counter", 1, Range::UpTo(8));
    }

    fn pulse(&mut self, part: &str) {
        self.group(part, 64);
        self.put(part, "sweep_period", 1, Range::UpTo(7));
        self.put(part, "sweep_current_time", 1, Range::UpTo(8));
        self.flags(part, &["sweep_internal_enable"]);
        self.put(part, "sweep_frequency_shadow", 2, Range::UpTo(2047));
        self.flags(part, &["sweep_negate"]);
        self.put(part, "sweep_shift_n", 1, Range::UpTo(7));
        self.flags(part, &["sweep_calculation_happened"]);
        self.put(part, "sequencer_position", 8, Range::UpTo(7));
        self.put(part, "duty", 1, Range::UpTo(3));
        self.envelope(part);
        self.put(part, "frequency", 2, Range::UpTo(2047));
        self.put(part, "frequency_timer", 2, Range::UpTo(2047));
        self.flags(part, &["channel_enabled", "first_trigger", "dac_enable"]);
    }

    fn wave(&mut self, part: &str) {
        self.group(part, 256);
        self.put(part, "volume", 1, Range::UpTo(3));
        self.put(part, "volume_shift", 1, Range::Shift);
        self.put(part, "frequency", 2, Range::UpTo(2047));
        (0..16).for_each(|place| self.put(part, &format!("buffer {place}"), 1, Range::UpTo(255)));
        self.put(part, "buffer_position", 1, Range::UpTo(31));
        self.flags(part, &["buffer_position_just_clocked"]);
        self.put(part, "frequency_timer", 2, Range::UpTo(2050));
        self.flags(part, &["channel_enable", "dac_enable", "model"]);
    }

    fn noise(&mut self, part: &str) {
        self.group(part, 64);
        self.put(part, "shift_clock_frequency", 1, Range::UpTo(15));
        self.flags(part, &["step_mode_7_bits"]);
        self.put(part, "divisor_code", 1, Range::UpTo(7));
        self.put(part, "frequency_timer", 2, Range::UpTo(16383));
        self.put(part, "feedback_shift_register", 2, Range::UpTo(0x7FFF));
        self.envelope(part);
        self.flags(part, &["channel_enabled", "dac_enable"]);
    }
}

/// Every field of an image in order, version and length first.
pub fn fields() -> Vec<Field> {
    let mut list = Fields(Vec::new());
    list.put("", "version", 1, Range::Exactly(1));
    list.put("", "length of the rest", 2, Range::Exactly(IMAGE_BYTES as u64 - 3));
    list.pulse("pulse 1 ");
    list.pulse("pulse 2 ");
    list.wave("wave ");
    list.noise("noise ");
    list.put("", "channels_control", 1, Range::UpTo(255));
    list.put("", "channels_selection", 1, Range::UpTo(255));
    list.flags("", &["power"]);
    list.put("", "sample_counter", 8, Range::SampleCounter);
    list.flags("", &["divider_sequencer_clock_bit"]);
    list.put("", "sequencer_position", 1, Range::Position);
    list.flags("", &["clocks_counter", "model"]);
    list.0
}

/// A field's number in an image.
pub fn number(image: &[u8], field: &Field) -> u64 {
    image[field.at..field.at + field.bytes].iter().fold(0, |sum, &byte| sum << 8 | u64::from(byte))
}

/// Puts a number into a field.
pub fn set(image: &mut [u8], field: &Field, number: u64) {
    image[field.at..field.at + field.bytes].copy_from_slice(&number.to_be_bytes()[8 - field.bytes..]);
}

/// The reader: it knows the fields' list, and where the model stands.
pub struct Reader {
    pub fields: Vec<Field>,
    pub models: [usize; 2],
}

impl Reader {
    pub fn new() -> Reader {
        let mut reader = Reader { fields: fields(), models: [0; 2] };
        assert_eq!(reader.fields.last().map(|field| field.at + field.bytes), Some(IMAGE_BYTES), "the fields' widths sum to the image's length");
        reader.models = ["wave model", "model"].map(|name| reader.place(name));
        reader
    }

    pub fn place(&self, name: &str) -> usize {
        self.fields.iter().find(|field| field.name == name).unwrap_or_else(|| panic!("there is no field {name}")).at
    }

    /// Whether an image is taken.
    pub fn taken(&self, image: &[u8]) -> bool {
        let [wave, unit] = self.models;
        image.len() == IMAGE_BYTES && self.fields.iter().all(|field| lies(image, field)) && image[wave] == image[unit]
    }
}

fn lies(image: &[u8], field: &Field) -> bool {
    let number = number(image, field);
    match field.range {
        Range::UpTo(most) => number <= most,
        Range::Exactly(wanted) => number == wanted,
        Range::Capacitor => number >> 31 == 0 && f32::from_bits(number as u32) <= 1.0,
        Range::SampleCounter => {
            let counter = f64::from_bits(number);
            // a product with a power of two is exact
            number >> 63 == 0 && counter < N && (counter / UNIT).fract() == 0.0
        }
        Range::Position => number == 0xFF || number <= 7,
        Range::Shift => matches!((image[field.at - 1], number), (0, 0) | (0, 4) | (1, 0) | (2, 1) | (3, 2)),
    }
}

/// A number of a range, its ends favoured.
fn any_up_to(random: &mut Random, most: u64) -> u64 {
    match random.below(5) {
        0 => 0,
        1 => most,
        2 => random.below(most.min(3) + 1),
        3 => most - random.below(most.min(3) + 1),
        _ => random.below(most + 1),
    }
}

fn any_capacitor(random: &mut Random) -> u32 {
    let one = 1f32.to_bits();
    match random.below(6) {
        0 => 0,
        1 => one - random.below(3) as u32,
        2 => 1 + random.below(0x0080_0002) as u32,
        3 => random.below(200) as u32,
        4 => (random.below(1 << 24) as f32 / (1 << 24) as f32).to_bits(),
        _ => random.below(u64::from(one) + 1) as u32,
    }
}

/// The units of a frame: the sample counter is below so many.
pub const UNITS_OF_A_FRAME: u64 = (N / UNIT) as u64;

fn any_counter(random: &mut Random) -> f64 {
    let units = match random.below(6) {
        0 => random.below(3),
        1 => UNITS_OF_A_FRAME - 1 - random.below(3),
        // the last clock before a frame is due, and the one after it
        2 => UNITS_OF_A_FRAME - (1 << 48) - 2 + random.below(5),
        3 => random.below(24) << 48,
        4 => random.below(1 << 20),
        _ => random.below(UNITS_OF_A_FRAME),
    };
    units.min(UNITS_OF_A_FRAME - 1) as f64 * UNIT
}

/// A random image that is taken. Nothing but the ranges is kept to: its fields need not go together.
pub fn any(reader: &Reader, random: &mut Random) -> Image {
    let mut image = [0; IMAGE_BYTES];
    for field in &reader.fields {
        let number = match field.range {
            Range::UpTo(most) => any_up_to(random, most),
            Range::Exactly(number) => number,
            Range::Capacitor => u64::from(any_capacitor(random)),
            Range::SampleCounter => any_counter(random).to_bits(),
            Range::Position => random.of(&[0xFF, 0, 1, 2, 3, 4, 5, 6, 7]),
            Range::Shift => match image[field.at - 1] {
                0 => random.of(&[0, 4]),
                volume => u64::from(volume) - 1,
            },
        };
        set(&mut image, field, number);
    }
    image[reader.models[0]] = image[reader.models[1]];
    // most often what makes a sound is on, or nothing would be heard
    if !random.one_in(4) {
        for name in ["power", "pulse 1 channel_enabled", "pulse 2 channel_enabled", "wave channel_enable", "noise channel_enabled"] {
            image[reader.place(name)] = u8::from(!random.one_in(5));
        }
    }
    image
}
