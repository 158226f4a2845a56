//! VGM files in families: those that are gone through whole, and random ones, each from a seed of its own.
use crate::vectors;

/// Which files of a family are played too: one in so many, of those with at most so many clock calls.
#[derive(Clone, Copy)]
pub struct Play {
    pub one_in: u64,
    pub calls: u128,
}

const NONE: Play = Play { one_in: u64::MAX, calls: 0 };
const EACH: Play = Play { one_in: 1, calls: 200_000_000 };
const SHORT: Play = Play { one_in: 1, calls: 60_000 };
const SOME: Play = Play { one_in: 8, calls: 4_000_000 };
const RARE: Play = Play { one_in: 1009, calls: 60_000 };
const FEW: Play = Play { one_in: 97, calls: 4_000_000 };

/// A family, how many files it has, and the file by its number.
pub struct Family {
    pub name: &'static str,
    pub files: u64,
    pub play: Play,
    pub make: Box<dyn Fn(u64) -> Vec<u8> + Sync>,
}

fn family(name: &'static str, files: u64, play: Play, make: impl Fn(u64) -> Vec<u8> + Sync + 'static) -> Family {
    Family { name, files, play, make: Box::new(make) }
}

/// A small generator of random numbers (splitmix64).
pub struct Random(u64);

impl Random {
    pub fn new(seed: u64, family: u64, index: u64) -> Random {
        let mut random = Random(seed ^ family << 56 ^ index.wrapping_mul(0x9E37_79B9_7F4A_7C15));
        random.next();
        random
    }

    fn next(&mut self) -> u64 {
        self.0 = self.0.wrapping_add(0x9E37_79B9_7F4A_7C15);
        let mut x = self.0;
        x = (x ^ (x >> 30)).wrapping_mul(0xBF58_476D_1CE4_E5B9);
        x = (x ^ (x >> 27)).wrapping_mul(0x94D0_49BB_1331_11EB);
        x ^ (x >> 31)
    }

    /// From 0 up to `end`, which it does not reach.
    fn below(&mut self, end: u64) -> u64 {
        self.next() % end
    }

    fn one_in(&mut self, n: u64) -> bool {
        self.below(n) == 0
    }

    fn byte(&mut self) -> u8 {
        self.next() as u8
    }

    fn bytes(&mut self, length: u64) -> Vec<u8> {
        (0..length).map(|_| self.byte()).collect()
    }

    fn of<T: Copy>(&mut self, choices: &[T]) -> T {
        choices[self.below(choices.len() as u64) as usize]
    }
}

/// The digits of a number, the first one running fastest.
fn digits<const N: usize>(mut number: u64, bases: [u64; N]) -> [usize; N] {
    bases.map(|base| {
        let digit = number % base;
        number /= base;
        digit as usize
    })
}

fn set(file: &mut [u8], at: usize, number: u32) {
    file[at..at + 4].copy_from_slice(&number.to_le_bytes());
}

/// A file of a version whose data starts at a place, with zeros before it.
pub fn file_at(version: u32, start: usize, data: &[u8]) -> Vec<u8> {
    let mut file = vec![0; start];
    file[..4].copy_from_slice(b"Vgm ");
    set(&mut file, 0x08, version);
    set(&mut file, 0x34, start as u32 - 0x34);
    set(&mut file, 0x80, 4_194_304);
    file.extend(data);
    file
}

/// A file of version 1.61 whose data starts right after the header.
pub fn file(data: &[u8]) -> Vec<u8> {
    file_at(0x161, 0x84, data)
}

/// Some of everything that is taken.
const DATA: [u8; 17] = [0xB3, 0x16, 0x80, 0x62, 0xB3, 0x04, 0x87, 0x70, 0x61, 0x00, 0x00, 0x61, 0x34, 0x02, 0x63, 0x7F, 0x66];

/// Every byte of the header over all its values, in a file whose data starts at hex 84 and in one where it starts later.
fn header_byte(index: u64) -> Vec<u8> {
    let [value, at, late] = digits(index, [256, 0x84, 2]);
    let mut file = if late == 0 { file(&DATA) } else { file_at(0x171, 0x93, &DATA) };
    file[at] = value as u8;
    file
}

/// Version numbers: all of three digits, each bit alone and above 161, and the highest.
fn version(index: u64) -> Vec<u8> {
    let number = match index {
        0..0x400 => index as u32,
        0x400..0x420 => 1 << (index - 0x400),
        0x420..0x440 => 0x161 | 1 << (index - 0x420),
        0x440..0x460 => 0x160 | 1 << (index - 0x440),
        _ => [u32::MAX, 0x6101_0000, 0x0161_0000, 0x8000_0161][index as usize - 0x460],
    };
    file_at(number, 0x84, &DATA)
}

/// Clocks about the one that is taken, with each bit turned, with both flags, and those of other chips.
fn clock(index: u64) -> Vec<u8> {
    let right = 4_194_304u32;
    let number = match index {
        0..129 => right + index as u32 - 64,
        129..161 => right ^ 1 << (index - 129),
        _ => [0, right | 3 << 30, right.swap_bytes(), 3_579_545, u32::MAX][index as usize - 161],
    };
    let mut file = file(&DATA);
    set(&mut file, 0x80, number);
    file
}

/// Data offsets: starts up to hex 93, about the file's end, and offsets about 2^31 and 2^32, in files of seven lengths.
fn offset(index: u64) -> Vec<u8> {
    let [which, length] = digits(index, [0x94 + 9 + 0x94 + 9, 7]);
    let (length, which) = ([0, 1, 2, 3, 8, 60, 200][length], which as u32);
    // ends all along, so that a start that is taken wrongly finds one
    let mut file = file(&vec![0x66; length]);
    let end = file.len() as u32;
    let offset = match which {
        0..0x94 => which.wrapping_sub(0x34),
        0x94..0x9D => end + (which - 0x94) - 4 - 0x34,
        0x9D..0x131 => u32::MAX - (which - 0x9D),
        _ => (1 << 31) + (which - 0x131) - 4,
    };
    set(&mut file, 0x34, offset);
    file
}

/// Files to cut: their data starts at hex 84, right after it and well after it.
fn whole_files(seed: u64) -> Vec<Vec<u8>> {
    let mut all = vec![file(&DATA), file_at(0x161, 0x85, &DATA), file_at(0x170, 0x100, &DATA), file_at(0x172, 0x187, &DATA), file(&[0x66])];
    for number in 0..9 {
        let mut song = Song::new(Random::new(seed, 100, number));
        song.shape(number as usize % SHAPES.len(), 24);
        all.push(song.dressed());
    }
    all
}

/// Those files cut at every length.
fn cuts(seed: u64) -> Family {
    let files = whole_files(seed);
    let lengths: Vec<(usize, usize)> = files.iter().enumerate().flat_map(|(number, file)| (0..=file.len()).map(move |length| (number, length))).collect();
    family("cut at every length", lengths.len() as u64, SHORT, move |index| {
        let (number, length) = lengths[index as usize];
        files[number][..length].to_vec()
    })
}

/// Every first byte of a command, first, after a write, after a wait, with nothing, something or an end behind it.
fn first_byte(index: u64) -> Vec<u8> {
    let [byte, tail, front] = digits(index, [256, 9, 3]);
    let fronts: [&[u8]; 3] = [&[], &[0xB3, 0x02, 0xF0], &[0x74]];
    let tails: [&[u8]; 9] = [&[], &[0x66], &[0], &[0, 0x66], &[0, 0], &[0, 0, 0x66], &[0x2F, 0xFF, 0x66], &[0x30, 1, 0x66], &[0x66, 0x66, 0x66]];
    file(&[fronts[front], &[byte as u8], tails[tail]].concat())
}

/// Every register byte of B3 with three values, with an end, without one, and with the value cut off.
fn register(index: u64) -> Vec<u8> {
    let [register, value, tail] = digits(index, [256, 3, 3]);
    let mut data = vec![0x72, 0xB3, register as u8, [0x00, 0x80, 0xFF][value]];
    match tail {
        0 => data.push(0x66),
        1 => {}
        _ => data.truncate(3),
    }
    file(&data)
}

/// Both pulses, the first with a sweep and a length, the second with an envelope: what is heard shows where the divider is.
#[rustfmt::skip]
const SOUND: [u8; 27] = [
    0xB3, 0x14, 0x77, 0xB3, 0x15, 0xF3, 0xB3, 0x00, 0x27, 0xB3, 0x01, 0xB4, 0xB3, 0x02, 0xF0, 0xB3, 0x04, 0xC3,
    0xB3, 0x06, 0x40, 0xB3, 0x07, 0xF1, 0xB3, 0x09, 0x86,
];

/// A wait of every length by 61, after one by 7n that differs.
fn each_wait(index: u64) -> Vec<u8> {
    let [low, high] = (index as u16).to_le_bytes();
    file(&[&SOUND[..], &[0x70 | (index / 7 % 16) as u8, 0x61, low, high, 0x70, 0x66]].concat())
}

/// From every remainder of 11,025 samples on: the short waits, and one by 61.
fn each_remainder(index: u64) -> Vec<u8> {
    let [low, high] = (index as u16).to_le_bytes();
    let [other, more] = ((index * 37) as u16).to_le_bytes();
    let waits: [&[u8]; 4] = [&[0x62], &[0x63], &[0x7F, 0x71], &[0x61, other, more]];
    file(&[&SOUND[..], &[0x61, low, high, 0x70], waits[index as usize % 4], &[0x70, 0x66]].concat())
}

/// Waits about every edge: 0, 1, ticks, one record's calls, whole records, and the most.
fn edge_waits() -> Vec<Vec<u8>> {
    let edges = [0u16, 1, 2, 16, 17, 689, 690, 734, 735, 736, 881, 882, 883, 11024, 11025, 11026, 22050, 33075, 44099, 44100, 55125, 65534, 65535];
    let long = edges.map(|samples| vec![0x61, samples as u8, (samples >> 8) as u8]);
    long.into_iter().chain([0x62, 0x63].into_iter().chain(0x70..=0x7F).map(|byte| vec![byte])).collect()
}

/// Any two of them in a row, with nothing, a write or a wait of 0 between.
fn two_waits() -> Family {
    let waits = edge_waits();
    let many = waits.len() as u64;
    family("two waits in a row", many * many * 3, FEW, move |index| {
        let [first, second, between] = digits(index, [many, many, 3]);
        let betweens: [&[u8]; 3] = [&[], &[0xB3, 0x16, 0x80], &[0x61, 0, 0]];
        file(&[&SOUND[..], &waits[first], betweens[between], &waits[second], &[0x66]].concat())
    })
}

/// Logs of 65,520 to 65,560 bytes: of more and more writes, of clock records by four kinds of wait; then an end, or a command that is wrong or cut short.
fn log_length(index: u64) -> Vec<u8> {
    let [length, writes, kind, ending] = digits(index, [21, 5, 4, 8]);
    let rest = 65520 + 2 * length - 8;
    // a write is 6 bytes and a clock record 8: some number of writes among four in a row leaves whole records
    let writes = (0..4).map(|more| [0, 1, 1000, 5000, 10912][writes] + more).find(|writes| (rest - 6 * writes) % 8 == 0).expect("one of four");
    let records = (rest - 6 * writes) / 8;
    let waits: [(&[u8], usize); 4] = [(&[0x70], 1), (&[0x62], 2), (&[0x61, 0x11, 0x2B], 16), (&[0x61, 0xFF, 0xFF], 96)];
    let (wait, each) = waits[kind];
    let endings: [&[u8]; 8] = [&[0x66], &[0x66, 0xFF], &[], &[0x67, 0x66], &[0xB3, 0x30, 0, 0x66], &[0xB3, 0], &[0x61, 0], &[0x61, 0, 0, 0x66]];
    file(&[&[0xB3, 0x14, 0x77].repeat(writes), &wait.repeat(records / each), &vec![0x7F; records % each], endings[ending]].concat())
}

/// Data under way.
struct Song {
    random: Random,
    data: Vec<u8>,
}

pub const SHAPES: [&str; 6] = ["ticks", "small waits", "any waits", "waits about edges", "writes alone", "waits alone"];

impl Song {
    fn new(random: Random) -> Song {
        Song { random, data: Vec::new() }
    }

    fn write(&mut self, register: u8, value: u8) {
        self.data.extend([0xB3, register, value]);
    }

    fn wait(&mut self, samples: u16) {
        self.data.push(0x61);
        self.data.extend(samples.to_le_bytes());
    }

    /// Volumes and sides, and every channel once.
    fn begin(&mut self) {
        let (volumes, sides) = (self.random.byte(), self.random.byte());
        self.write(0x14, volumes);
        self.write(0x15, sides | 0x11);
        (0..4).for_each(|channel| self.sound(channel));
    }

    /// A channel's registers with sense, and its trigger: 0 and 1 pulse, 2 wave, 3 noise.
    fn sound(&mut self, channel: u8) {
        let base = 5 * channel;
        for (register, least) in [(0, if channel == 2 { 0x80 } else { 0 }), (1, 0), (2, if channel == 2 { 0x20 } else { 0x80 }), (3, 0), (4, 0x80)] {
            let value = self.random.byte() | least;
            self.write(base + register, value);
        }
        if channel == 2 && self.random.one_in(4) {
            (0x20..0x30).for_each(|register| self.data.extend([0xB3, register, self.random.byte()]));
        }
    }

    /// Some writes: to a channel, to any register, and seldom power off or on.
    fn writes(&mut self, most: u64) {
        for _ in 0..self.random.below(most + 1) {
            match self.random.below(24) {
                0 => {
                    let power = self.random.of(&[0x00, 0x80, 0x80]);
                    self.write(0x16, power);
                }
                1..=4 => {
                    let channel = self.random.below(4) as u8;
                    self.sound(channel);
                }
                _ => self.any_write(),
            }
        }
    }

    /// A write to any register but the one of power.
    fn any_write(&mut self) {
        let (register, value) = (self.random.below(48) as u8, self.random.byte());
        self.write(if register == 0x16 { 0x12 } else { register }, value);
    }

    /// A wait of any length, the short ones as often as the long ones; by 62, 63 and 7n too.
    fn any_wait(&mut self) {
        match self.random.below(8) {
            0 => self.data.push(0x62),
            1 => self.data.push(0x63),
            2 | 3 => self.data.push(0x70 | self.random.byte() % 16),
            4 => self.wait(0),
            _ => {
                let bits = self.random.below(16);
                let samples = self.random.below(2 << bits) as u16;
                self.wait(samples);
            }
        }
    }

    /// A step of a song of this shape.
    fn step(&mut self, shape: usize) {
        match shape {
            0 => {
                self.writes(4);
                self.data.push(0x62);
            }
            1 => {
                self.writes(1);
                self.data.push(0x70 | self.random.byte() % 16);
            }
            2 => {
                self.writes(2);
                self.any_wait();
            }
            3 => {
                self.writes(2);
                let waits = edge_waits();
                let number = self.random.below(waits.len() as u64) as usize;
                self.data.extend(&waits[number]);
            }
            4 => self.any_write(),
            _ => self.any_wait(),
        }
    }

    /// A song of so many steps, with its end.
    fn shape(&mut self, shape: usize, steps: u64) {
        self.begin();
        (0..steps).for_each(|_| self.step(shape));
        // what writes alone have done is heard in a tick
        self.data.extend(if shape == 4 { &[0x62, 0x66][..] } else { &[0x66] });
    }

    /// The song as a file: any version and start, any bytes in all that is passed over.
    fn dressed(mut self) -> Vec<u8> {
        let start = if self.random.one_in(2) { 0x84 } else { 0x84 + self.random.below(0x100) as usize };
        let version = self.random.of(&[0x161, 0x161, 0x170, 0x171, 0x172, 0x200]);
        let mut file = file_at(version, start, &self.data);
        let taken = |at: usize| at < 4 || (8..12).contains(&at) || (0x34..0x38).contains(&at) || (0x80..0x84).contains(&at) || at >= start;
        (0..start).filter(|&at| !taken(at)).for_each(|at| file[at] = self.random.byte());
        if self.random.one_in(2) {
            let tags = self.random.below(40);
            file.extend(b"Gd3 ");
            file.extend(self.random.bytes(tags));
        }
        file
    }
}

/// A random file of a shape. Most are short.
fn valid(shape: usize, seed: u64, index: u64) -> Vec<u8> {
    let mut song = Song::new(Random::new(seed, shape as u64, index));
    let most = song.random.of(&[2, 8, 8, 40, 40, 150]);
    let steps = song.random.below(most);
    song.shape(shape, steps);
    song.dressed()
}

/// One thing of a file spoilt: a byte, a bit, a byte more or less, its length, its end.
fn spoil(file: &mut Vec<u8>, random: &mut Random) {
    // as often in the data as in the header
    let from = if random.one_in(2) { 0x84.min(file.len()) } else { 0 };
    let at = from + random.below((file.len() - from) as u64 + 1) as usize;
    match (random.below(7), at < file.len()) {
        (0, true) => file[at] = random.byte(),
        (1, true) => file[at] ^= 1 << random.below(8),
        (2, true) => file[at] = random.of(&[0x61, 0x62, 0x66, 0x70, 0xB3, 0x30, 0x2F]),
        (3, true) => drop(file.remove(at)),
        (4, _) => file.insert(at, random.byte()),
        (5, _) => file.truncate(at),
        _ => file.retain(|&byte| byte != 0x66),
    }
}

/// A random file of any shape, spoilt once, twice or three times.
fn damaged(seed: u64, index: u64) -> Vec<u8> {
    let mut random = Random::new(seed, 20, index);
    let mut file = valid((index % 6) as usize, seed ^ 1, index);
    (0..=random.below(3)).for_each(|_| spoil(&mut file, &mut random));
    file
}

/// A right header and any bytes, most of them first bytes of commands; or any bytes all through.
fn noise(seed: u64, index: u64) -> Vec<u8> {
    let mut random = Random::new(seed, 21, index);
    let length = random.below(60);
    if random.one_in(16) {
        let length = random.below(300);
        return random.bytes(length);
    }
    let starts = [0x61, 0x62, 0x63, 0x70, 0x7F, 0xB3, 0x66];
    let data: Vec<u8> = (0..length).map(|_| if random.one_in(3) { random.byte() } else { random.of(&starts) }).collect();
    file(&data)
}

/// A log of 40,000 to 250,000 bytes, with a wrong command, a cut or an end at any place of its data, or as it is.
fn long(seed: u64, index: u64) -> Vec<u8> {
    let mut song = Song::new(Random::new(seed, 22, index));
    let units: [(&[u8], usize); 5] = [(&[0x70], 8), (&[0x62], 16), (&[0xB3, 0x12, 0x34], 6), (&[0x61, 0xFF, 0xFF], 768), (&[0x63, 0xB3, 0x13, 7], 22)];
    let (unit, each) = song.random.of(&units);
    let many = (40_000 + song.random.below(210_000) as usize) / each;
    song.data = unit.repeat(many);
    let at = unit.len() * song.random.below(many as u64) as usize;
    match song.random.below(4) {
        0 => song.data[at] = song.random.of(&[0x00, 0x50, 0x64, 0x80, 0xB4]),
        1 => song.data.truncate(at + 1),
        2 => song.data[at] = 0x66,
        _ => {}
    }
    song.data.push(0x66);
    song.dressed()
}

/// Songs whose logs are nearly as long as a log may be: of ticks, of small waits, of writes, and of the longest waits.
fn whole_log(seed: u64, index: u64) -> Vec<u8> {
    let mut song = Song::new(Random::new(seed, 23, index));
    song.begin();
    let (steps, writes): (usize, usize) = [(1500, 4), (2400, 3), (1050, 9), (80, 4)][index as usize];
    for _ in 0..steps {
        (0..writes).for_each(|_| song.any_write());
        match index {
            0 => song.data.push(0x62),
            1 => song.data.push(0x70 | song.random.byte() % 16),
            2 => song.data.extend([0x61, 0x00, 0x01]),
            _ => song.wait(0xFFFF),
        }
    }
    song.data.push(0x66);
    song.dressed()
}

/// All families; of the random files there are so many.
pub fn families(random: u64, seed: u64) -> Vec<Family> {
    let by_hand = vectors::all();
    let mut all = vec![
        family("by hand", by_hand.len() as u64, EACH, move |index| by_hand[index as usize].0.clone()),
        family("every header byte", 256 * 0x84 * 2, RARE, header_byte),
        family("versions", 0x464, FEW, version),
        family("clocks", 166, FEW, clock),
        family("data offsets", (0x94 + 9 + 0x94 + 9) * 7, NONE, offset),
        cuts(seed),
        family("every first command byte", 256 * 9 * 3, SHORT, first_byte),
        family("every register", 256 * 3 * 3, SHORT, register),
        family("every wait by 61", 65536, FEW, each_wait),
        family("every remainder", 11025, SOME, each_remainder),
        two_waits(),
        family("logs of 65,520 to 65,560 bytes", 21 * 5 * 4 * 8, FEW, log_length),
    ];
    for (shape, name) in SHAPES.into_iter().enumerate() {
        all.push(family(name, random / 10, SOME, move |index| valid(shape, seed, index)));
    }
    all.push(family("damaged", random * 3 / 10, SHORT, move |index| damaged(seed, index)));
    all.push(family("any bytes", random / 10, SHORT, move |index| noise(seed, index)));
    all.push(family("long logs", random / 20, FEW, move |index| long(seed, index)));
    all.push(family("whole logs, played", 4, EACH, move |index| whole_log(seed, index)));
    all
}
