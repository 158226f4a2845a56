//! Logs in families, each from a seed of its own.
use crate::compare::{Also, Case};
use crate::image::{self, Reader};
use crate::log::{bytes, Record};

/// A small generator of random numbers (splitmix64).
pub struct Random(u64);

impl Random {
    pub fn new(seed: u64, family: usize, index: u64) -> Random {
        let mut random = Random(seed ^ (family as u64) << 56 ^ index.wrapping_mul(0x9E37_79B9_7F4A_7C15));
        random.next();
        random
    }

    pub fn next(&mut self) -> u64 {
        self.0 = self.0.wrapping_add(0x9E37_79B9_7F4A_7C15);
        let mut x = self.0;
        x = (x ^ (x >> 30)).wrapping_mul(0xBF58_476D_1CE4_E5B9);
        x = (x ^ (x >> 27)).wrapping_mul(0x94D0_49BB_1331_11EB);
        x ^ (x >> 31)
    }

    /// From 0 up to `end`, which it does not reach.
    pub fn below(&mut self, end: u64) -> u64 {
        self.next() % end
    }

    pub fn one_in(&mut self, n: u64) -> bool {
        self.below(n) == 0
    }

    fn byte(&mut self) -> u8 {
        self.next() as u8
    }

    pub fn of<T: Copy>(&mut self, choices: &[T]) -> T {
        choices[self.below(choices.len() as u64) as usize]
    }

    fn count(&mut self, most: u64) -> u16 {
        (1 + self.below(most)) as u16
    }
}

/// A log under way.
struct Log {
    version: u8,
    random: Random,
    records: Vec<Record>,
    high: bool,
}

const CONTROLS: [u16; 4] = [0xFF14, 0xFF19, 0xFF1E, 0xFF23];

impl Log {
    fn new(version: u8, random: Random) -> Log {
        Log { version, random, records: Vec::new(), high: false }
    }

    fn bytes(&self, start: u8) -> Vec<u8> {
        bytes(self.version, start, &self.records)
    }

    fn write(&mut self, addr: u16, value: u8) {
        self.records.push(Record::Write { addr, value });
    }

    fn read(&mut self, addr: u16) {
        self.records.push(Record::Read { addr });
    }

    /// Clock calls from a divider on; in version 2 at any phase of it.
    fn clock(&mut self, double: bool, divider: u8, count: u16) {
        let phase = (self.version == 2).then(|| self.random.below(64) as u8);
        self.records.push(Record::Clock { double, divider, phase, count });
    }

    /// Clock calls from what the divider has come to after so many calls: in version 2 its phase too.
    fn clock_at(&mut self, double: bool, at: u64, count: u16) {
        let phase = (self.version == 2).then_some((at % 64) as u8);
        self.records.push(Record::Clock { double, divider: (at / 64) as u8, phase, count });
    }

    /// Clock calls at normal speed with any divider.
    fn run(&mut self, count: u16) {
        let divider = self.random.byte();
        self.clock(false, divider, count);
    }

    /// The stored bit made to fall: the sequencer goes one position on.
    fn step(&mut self) {
        let count = self.random.count(3);
        self.clock(false, 0x10, count);
        self.clock(false, 0, count);
    }

    /// Divider bits 4 and 5 turned from what they were: at either speed the stored bit moves.
    fn turn(&mut self) {
        self.high = !self.high;
        let (double, count) = (self.random.one_in(2), self.random.count(3));
        self.clock(double, if self.high { 0x30 } else { 0 }, count);
    }

    fn power_on(&mut self) {
        self.write(0xFF26, 0x80);
        let control = self.random.byte();
        self.write(0xFF24, control);
        let selection = if self.random.one_in(2) { 0xFF } else { self.random.byte() };
        self.write(0xFF25, selection);
    }

    fn any_write(&mut self) {
        let (addr, value) = (0xFF10 + self.random.below(48) as u16, self.random.byte());
        self.write(addr, value);
    }

    fn look(&mut self) {
        match self.random.below(4) {
            0 => self.records.push(Record::Pcm),
            1 => self.read(0xFF26),
            _ => {
                let addr = 0xFF10 + self.random.below(48) as u16;
                self.read(addr);
            }
        }
    }

    /// A channel's registers with sense, and its trigger: 0 and 1 pulse, 2 wave, 3 noise.
    fn sound(&mut self, channel: u64) {
        let base = 0xFF10 + 5 * channel as u16;
        let length = self.random.byte();
        self.write(base + 1, length);
        let volume = match (channel, self.random.one_in(8)) {
            (2, _) => self.random.byte(),
            (_, true) => 0,
            _ => self.random.byte() | 0x80,
        };
        self.write(base + 2, volume);
        if channel == 2 {
            self.write(0xFF1A, 0x80);
        }
        let low = self.random.byte();
        self.write(base + 3, low);
        let high = self.random.of(&[0, 3, 6, 7, 7, 7]);
        let enable = if self.random.one_in(2) { 0x40 } else { 0 };
        self.write(base + 4, 0x80 | enable | high);
    }

    fn wave_table(&mut self) {
        for addr in 0xFF30..=0xFF3F {
            let value = self.random.byte();
            self.write(addr, value);
        }
    }
}

fn any(log: &mut Log) {
    if log.random.one_in(2) {
        log.power_on();
    }
    for _ in 0..20 + log.random.below(120) {
        match log.random.below(8) {
            0..=3 => log.any_write(),
            4 => log.look(),
            5 => log.turn(),
            6 => {
                let (divider, double, count) = (log.random.byte(), log.random.one_in(2), log.random.count(300));
                log.clock(double, divider, count);
            }
            _ => {
                let (control, value) = (log.random.of(&CONTROLS), 0x80 | log.random.byte());
                log.write(control, value);
            }
        }
    }
}

fn triggers(log: &mut Log) {
    log.power_on();
    log.wave_table();
    for _ in 0..4 + log.random.below(12) {
        let channel = log.random.below(4);
        log.sound(channel);
        for _ in 0..log.random.below(6) {
            match log.random.below(4) {
                0 => log.step(),
                1 => log.look(),
                _ => {
                    let count = log.random.count(400);
                    log.run(count);
                }
            }
        }
    }
    log.read(0xFF26);
}

fn edges(log: &mut Log) {
    log.power_on();
    for channel in 0..4 {
        log.sound(channel);
    }
    for _ in 0..60 + log.random.below(80) {
        match log.random.below(6) {
            0..=2 => log.turn(),
            3 => {
                let (control, value) = (log.random.of(&CONTROLS), log.random.byte() & 0xC7);
                log.write(control, value);
            }
            4 => {
                let (addr, value) = (log.random.of(&[0xFF11, 0xFF16, 0xFF1B, 0xFF20]), log.random.byte() | 0x30);
                log.write(addr, value);
            }
            _ => log.look(),
        }
    }
    log.read(0xFF26);
}

fn sweeps(log: &mut Log) {
    log.power_on();
    for _ in 0..3 + log.random.below(4) {
        let sweep = log.random.byte() & 0x7F;
        log.write(0xFF10, sweep);
        log.write(0xFF12, 0xF0);
        let frequency = match log.random.below(3) {
            0 => 2047 - log.random.below(64),
            1 => 1300 + log.random.below(140),
            _ => log.random.below(2048),
        };
        log.write(0xFF13, frequency as u8);
        log.write(0xFF14, 0x80 | (frequency >> 8) as u8);
        log.read(0xFF26);
        for _ in 0..8 + log.random.below(30) {
            log.step();
            if log.random.one_in(12) {
                let sweep = log.random.byte() & 0x7F;
                log.write(0xFF10, sweep);
            }
            if log.random.one_in(3) {
                log.read(0xFF26);
            }
        }
        log.run(200);
    }
}

fn wave(log: &mut Log) {
    log.power_on();
    log.wave_table();
    log.write(0xFF1A, 0x80);
    for _ in 0..40 + log.random.below(80) {
        match log.random.below(8) {
            0 | 1 => {
                let most = log.random.of(&[8, 2048]);
                let frequency = 2047 - log.random.below(most);
                log.write(0xFF1D, frequency as u8);
                let enable = log.random.of(&[0x80, 0x80, 0x80, 0xC0, 0]);
                log.write(0xFF1E, enable | (frequency >> 8) as u8);
            }
            2 | 3 => {
                let addr = 0xFF30 + log.random.below(16) as u16;
                log.read(addr);
            }
            4 => {
                let (addr, value) = (0xFF30 + log.random.below(16) as u16, log.random.byte());
                log.write(addr, value);
            }
            5 => {
                let (addr, value) = (log.random.of(&[0xFF1A, 0xFF1B, 0xFF1C]), log.random.byte() | 0x80);
                log.write(addr, value);
            }
            6 => log.records.push(Record::Pcm),
            _ => {
                let most = log.random.of(&[1, 4, 40]);
                let count = log.random.count(most);
                log.run(count);
            }
        }
    }
}

/// Every FF22 byte in turn.
fn noise(log: &mut Log, index: u64) {
    log.power_on();
    log.write(0xFF21, 0xF0);
    log.write(0xFF22, index as u8);
    log.write(0xFF23, 0x80);
    for _ in 0..20 {
        let most = log.random.of(&[4, 64, 3000]);
        let count = log.random.count(most);
        log.run(count);
        log.records.push(Record::Pcm);
        if log.random.one_in(6) {
            let shape = log.random.byte();
            log.write(0xFF22, shape);
        }
        if log.random.one_in(10) {
            log.write(0xFF23, 0x80);
        }
    }
}

fn power(log: &mut Log) {
    for _ in 0..6 + log.random.below(8) {
        let value = log.random.of(&[0x80, 0x80, 0, 0xFF, 0x7F]);
        log.write(0xFF26, value);
        for _ in 0..log.random.below(10) {
            match log.random.below(5) {
                0 => {
                    let channel = log.random.below(4);
                    log.sound(channel);
                }
                1 => log.turn(),
                2 => log.look(),
                3 => {
                    let count = log.random.count(100);
                    log.run(count);
                }
                _ => log.any_write(),
            }
        }
        log.read(0xFF26);
    }
    log.write(0xFF26, 0x80);
    log.turn();
    (0xFF10..0xFF40).for_each(|addr| log.read(addr));
}

fn speeds(log: &mut Log) {
    log.power_on();
    log.wave_table();
    for channel in 0..4 {
        log.sound(channel);
    }
    for _ in 0..30 + log.random.below(60) {
        let (double, divider, most) = (log.random.one_in(2), log.random.byte(), log.random.of(&[1, 3, 50, 2000]));
        let count = log.random.count(most);
        log.clock(double, divider, count);
        if log.random.one_in(4) {
            log.look();
        }
    }
}

/// Millions of clocks.
fn long(log: &mut Log) {
    log.power_on();
    log.wave_table();
    for channel in 0..4 {
        log.sound(channel);
    }
    for _ in 0..120 + log.random.below(120) {
        let (double, divider) = (log.random.one_in(6), log.random.byte());
        let count = if log.random.one_in(4) { log.random.count(16384) } else { 16384 };
        log.clock(double, divider, count);
        if log.random.one_in(5) {
            let channel = log.random.below(4);
            log.sound(channel);
        }
        if log.random.one_in(8) {
            log.look();
        }
    }
}

/// A wave that reads zeros after a sound: what the capacitor keeps fades until it is subnormal and stands still.
fn residue(log: &mut Log) {
    log.power_on();
    (0xFF30..0xFF40).for_each(|addr| log.write(addr, 0xFF));
    log.write(0xFF1A, 0x80);
    let volume = log.random.of(&[0x20, 0x40, 0x60]);
    log.write(0xFF1C, volume);
    let low = log.random.byte();
    log.write(0xFF1D, low);
    log.write(0xFF1E, 0x87);
    let count = 2000 + log.random.count(14000);
    log.run(count);
    log.write(0xFF1A, 0);
    (0xFF30..0xFF40).for_each(|addr| log.write(addr, 0));
    log.write(0xFF1A, 0x80);
    log.write(0xFF1E, 0x87);
    for _ in 0..36 + log.random.below(12) {
        log.run(16384);
    }
    if log.random.one_in(2) {
        (0xFF30..0xFF40).for_each(|addr| log.write(addr, 0x01));
        log.run(500);
    }
}

/// All four channels muted for long while their timers run, then heard again: only then does it show how far they came.
fn silences(log: &mut Log) {
    log.power_on();
    log.wave_table();
    for channel in 0..4 {
        log.sound(channel);
    }
    for _ in 0..4 + log.random.below(12) {
        for addr in [0xFF12, 0xFF17, 0xFF21] {
            log.write(addr, 0x08);
        }
        log.write(0xFF1A, 0);
        if log.random.one_in(2) {
            let shape = log.random.byte();
            log.write(0xFF22, shape);
        }
        for _ in 0..1 + log.random.below(3) {
            let (double, divider, most) = (log.random.one_in(3), log.random.byte(), log.random.of(&[30, 700, 16384]));
            let count = log.random.count(most);
            log.clock(double, divider, count);
        }
        for addr in [0xFF12, 0xFF17, 0xFF21] {
            let volume = log.random.byte() | 0x10;
            log.write(addr, volume);
        }
        if log.random.one_in(2) {
            log.sound(2);
        }
        let count = log.random.count(200);
        log.run(count);
        log.look();
    }
}

/// A good log of another family, cut, changed, grown or made too long.
fn damaged(random: &mut Random, index: u64) -> Vec<u8> {
    let family = random.below(8) as usize;
    let mut log = make(family, random.next(), index);
    damage(random, &mut log);
    log
}

/// Up to three places of a log cut, changed or grown.
fn damage(random: &mut Random, log: &mut Vec<u8>) {
    for _ in 0..1 + random.below(3) {
        let at = random.below(log.len() as u64 + 1) as usize;
        match random.below(6) {
            0 => log.truncate(at),
            1 | 2 if at < log.len() => log[at] = random.byte(),
            3 if at < log.len() => {
                log.remove(at);
            }
            4 => log.insert(at, random.byte()),
            5 if random.one_in(6) => {
                let length = random.of(&[65535, 65536, 65537, 70000]);
                while log.len() < length {
                    Record::Pcm.put(log);
                }
                log.truncate(length);
            }
            _ => log.push(random.byte()),
        }
    }
}

/// A family of random logs, and how many of ten thousand are its own.
pub const FAMILIES: [(&str, u64); 12] = [
    ("any access", 1500),
    ("triggers", 1500),
    ("sequencer edges", 1500),
    ("sweeps", 1000),
    ("wave RAM", 1200),
    ("noise", 768),
    ("power", 1000),
    ("both speeds", 500),
    ("long runs", 70),
    ("faint residue", 12),
    ("damaged", 650),
    ("silences", 300),
];

/// The log of a family by its number.
pub fn make(family: usize, seed: u64, index: u64) -> Vec<u8> {
    make_in(1, family, seed, index)
}

/// The same in a version: in version 2 every clock record has any phase.
fn make_in(version: u8, family: usize, seed: u64, index: u64) -> Vec<u8> {
    let mut random = Random::new(seed, family, index);
    if family == 10 {
        return damaged(&mut random, index);
    }
    let start = random.below(4) as u8;
    let mut log = Log::new(version, random);
    match family {
        0 => any(&mut log),
        1 => triggers(&mut log),
        2 => edges(&mut log),
        3 => sweeps(&mut log),
        4 => wave(&mut log),
        5 => noise(&mut log, index),
        6 => power(&mut log),
        7 => speeds(&mut log),
        8 => long(&mut log),
        9 => residue(&mut log),
        _ => silences(&mut log),
    }
    log.bytes(start)
}

// ---- logs played from images

/// A log of another family; the long ones are rare.
fn of_any_family(version: u8, random: &mut Random, index: u64) -> Vec<u8> {
    let family = if random.one_in(80) { random.of(&[8, 9]) } else { random.of(&[0, 1, 2, 3, 4, 5, 6, 7, 11]) };
    make_in(version, family, random.next(), index)
}

/// Cases on images of any kind, and cases cut into parts, some of them from an image of any kind.
pub const FROM_IMAGES: [(&str, u64); 2] = [("from any image", 1500), ("in parts through images", 1500)];

/// The case of a family of these by its number.
pub fn from_image(reader: &Reader, family: usize, seed: u64, index: u64) -> Case {
    let mut random = Random::new(seed, FAMILIES.len() + family, index);
    let in_parts = family == 1;
    let image = (!in_parts || random.one_in(3)).then(|| image::any(reader, &mut random));
    let log = of_any_family(1, &mut random, index);
    let also = if in_parts { Also::Parts { seed: random.next(), mixed: false } } else { Also::Nothing };
    Case { log, image, also }
}

// ---- version 2

/// Any access, with clock records of any byte, phase, count and speed.
fn any_phase(log: &mut Log) {
    if !log.random.one_in(4) {
        log.power_on();
    }
    for _ in 0..20 + log.random.below(60) {
        match log.random.below(8) {
            0..=2 => log.any_write(),
            3 => log.look(),
            4 => {
                let (control, value) = (log.random.of(&CONTROLS), 0x80 | log.random.byte());
                log.write(control, value);
            }
            _ => {
                let (double, divider, most) = (log.random.one_in(2), log.random.byte(), log.random.of(&[2, 64, 130, 2100, 16384]));
                let count = log.random.count(most);
                log.clock(double, divider, count);
            }
        }
    }
}

/// A sound that the sequencer ends, moves or fades within a few steps: a length of 1 or 2, an envelope of period 1, on pulse 1 a sweep too.
fn short_sound(log: &mut Log, channel: u64) {
    let base = 0xFF10 + 5 * channel as u16;
    let length = log.random.of(&[0xFF, 0xFE]);
    log.write(base + 1, length);
    if channel == 0 {
        let sweep = log.random.of(&[0x11, 0x12, 0x19, 0x21, 0x17, 0x1F]);
        log.write(base, sweep);
    }
    let volume = if channel == 2 { 0x20 } else { log.random.of(&[0xF1, 0x19, 0x81, 0xE9, 0x29]) };
    log.write(base + 2, volume);
    if channel == 2 {
        log.write(0xFF1A, 0x80);
    }
    let low = log.random.byte();
    log.write(base + 3, low);
    let (enable, high) = (log.random.of(&[0x40, 0x40, 0]), log.random.of(&[0, 2, 4, 5, 7]));
    log.write(base + 4, 0x80 | enable | high);
}

/// Calls up to about the place where the divider's bit changes next, or changes some changes later.
fn calls_about_a_change(random: &mut Random, double: bool, at: u64) -> u16 {
    let apart = if double { 2048 } else { 1024 };
    let calls = apart - at % apart + apart * random.of(&[0, 0, 0, 1, 1, 2, 3, 7, 15]) + random.below(5);
    (calls.max(3) - 2).min(16384) as u16
}

/// Power off and on again: the position comes to be -1 where the stored bit is set, else 0.
fn power_toggled(log: &mut Log) {
    if !log.random.one_in(3) {
        let (double, count) = (log.random.one_in(2), log.random.count(3));
        log.clock(double, 0x30, count);
    }
    log.write(0xFF26, 0);
    if log.random.one_in(3) {
        let (double, divider, count) = (log.random.one_in(2), log.random.byte(), log.random.count(3000));
        log.clock(double, divider, count);
    }
    log.power_on();
}

/// All that the sequencer moves is running while the divider runs on from record to record, and the records end about the places where its bit changes.
fn running(log: &mut Log) {
    log.power_on();
    log.wave_table();
    (0..4).for_each(|channel| short_sound(log, channel));
    let (mut at, mut double) = (log.random.below(1 << 14), log.random.one_in(2));
    for _ in 0..20 + log.random.below(40) {
        match log.random.below(12) {
            0 | 1 => {
                let channel = log.random.below(4);
                short_sound(log, channel);
            }
            2 => log.look(),
            3 => power_toggled(log),
            4 => at = log.random.below(1 << 14),
            5 => double = !double,
            _ => {
                let any = log.random.one_in(8);
                let count = if any { log.random.count(16384) } else { calls_about_a_change(&mut log.random, double, at) };
                log.clock_at(double, at, count);
                at += u64::from(count);
                log.read(0xFF26);
            }
        }
    }
    log.records.push(Record::Pcm);
    log.read(0xFF26);
}

/// One record of version 2 on a unit on which all that the sequencer moves is running, from either stored bit and half-clock.
fn one_clock_record(log: &mut Log) {
    log.power_on();
    (0..4).for_each(|channel| short_sound(log, channel));
    for _ in 0..log.random.below(8) {
        log.step();
    }
    if log.random.one_in(2) {
        log.clock_at(false, 0x30 * 64, 1);
    }
    if log.random.one_in(2) {
        log.clock_at(true, 0, 1);
    }
    let (from, many) = log.random.of(&[(2, 63), (2, 63), (2, 200), (1000, 60), (2040, 70), (4090, 20), (1, 5000)]);
    let count = if log.random.one_in(100) { 16384 } else { from + log.random.below(many) };
    let (double, at) = (log.random.one_in(2), log.random.below(1 << 14));
    // where no divider is to move within a record that is short enough for that
    let at = if count <= 64 && log.random.one_in(2) { at - at % 64 + log.random.below(65 - count) } else { at };
    log.clock_at(double, at, count as u16);
    log.read(0xFF26);
}

/// The places of a good log's clock records.
fn clock_places(log: &[u8]) -> Vec<usize> {
    let (mut at, mut places) = (2, Vec::new());
    while let Some(&[high, low, kind]) = log.get(at..at + 3) {
        if kind == 3 {
            places.push(at);
        }
        at += 2 + usize::from(u16::from_be_bytes([high, low]));
    }
    places
}

/// A clock record spoilt by what the versions differ in: another phase, or the other version's length.
fn spoil_clock(random: &mut Random, log: &mut Vec<u8>, at: usize) {
    match (log[0], random.below(4)) {
        (2, 0) => {
            log.remove(at + 5);
            log[at + 1] = 5;
        }
        (2, wrong) => {
            let any = 64 + random.below(192) as u8;
            log[at + 5] = random.of(&[63, 64, 65, 127, 128, 255, any]);
            // a second fault in the record, before the phase or after it
            if wrong == 1 {
                let (far, value) = random.of(&[(3, 2), (6, 0xFF)]);
                log[at + far] = value;
            }
        }
        _ => {
            log.insert(at + 5, random.of(&[0, 63, 64]));
            log[at + 1] = 6;
        }
    }
}

/// A good log of either version, spoilt by what the versions differ in, or as any other is.
fn damaged_2(random: &mut Random, index: u64) -> Vec<u8> {
    let (version, family) = (random.of(&[1, 2, 2, 2]), random.below(8) as usize);
    let mut log = make_in(version, family, random.next(), index);
    let places = clock_places(&log);
    match random.below(4) {
        0 => log[0] = random.of(&[0, 1, 2, 3, 4, 0x81, 0xFF]),
        1 | 2 if !places.is_empty() => {
            let at = random.of(&places);
            spoil_clock(random, &mut log, at);
        }
        _ => damage(random, &mut log),
    }
    log
}

/// Families of version 2 as those above are, and how many of ten thousand are a family's own, beside all that are of version 1.
pub const FAMILIES_2: [(&str, u64); 4] =
    [("version 2, any", 1500), ("version 2, sequencer", 1500), ("version 2, as the other families", 1500), ("version 2, damaged", 650)];

/// The log of a family of these by its number.
pub fn make_2(family: usize, seed: u64, index: u64) -> Vec<u8> {
    log_2(family, Random::new(seed, 32 + family, index), index)
}

fn log_2(family: usize, mut random: Random, index: u64) -> Vec<u8> {
    match family {
        0 => filled(random, any_phase),
        1 => filled(random, running),
        2 => of_any_family(2, &mut random, index),
        _ => damaged_2(&mut random, index),
    }
}

/// A log of version 2 with any start byte, and what is put into it.
fn filled(mut random: Random, fill: impl Fn(&mut Log)) -> Vec<u8> {
    let start = random.below(4) as u8;
    let mut log = Log::new(2, random);
    fill(&mut log);
    log.bytes(start)
}

/// Cases of version 2 that are more than a log on a fresh unit.
pub const CASES_2: [(&str, u64); 4] = [
    ("version 2, cut in two", 60),
    ("version 2, from any image", 1500),
    ("version 2, in parts through images", 1500),
    ("both versions in a chain of images", 1500),
];

/// The case of a family of these by its number.
pub fn case_2(reader: &Reader, family: usize, seed: u64, index: u64) -> Case {
    let mut random = Random::new(seed, 48 + family, index);
    if family == 0 {
        return Case { log: filled(random, one_clock_record), image: None, also: Also::CutInTwo };
    }
    let image = (family == 1 || random.one_in(3)).then(|| image::any(reader, &mut random));
    let also = if family == 1 { Also::Nothing } else { Also::Parts { seed: random.next(), mixed: family == 3 } };
    let kind = random.below(3) as usize;
    Case { log: log_2(kind, random, index), image, also }
}

// ---- links of a chain of days

/// The half-clocks that a record adds.
pub fn halves(record: &Record) -> u64 {
    match *record {
        Record::Clock { double, count, .. } => u64::from(count) * if double { 1 } else { 2 },
        _ => 0,
    }
}

/// The bytes of a record in a log.
fn width(record: &Record) -> usize {
    let mut bytes = Vec::new();
    record.put(&mut bytes);
    bytes.len()
}

/// One thing that a game would do: most often a sound begun again, by its own way.
fn event(log: &mut Log) {
    match log.random.below(16) {
        0..=4 => {
            let channel = log.random.below(4);
            log.sound(channel);
        }
        5 | 6 => {
            let (sweep, frequency) = (log.random.byte() & 0x7F, log.random.below(2048));
            for (addr, value) in [(0xFF10, sweep), (0xFF12, 0xF3), (0xFF13, frequency as u8), (0xFF14, 0x80 | (frequency >> 8) as u8)] {
                log.write(addr, value);
            }
        }
        7 | 8 => {
            let ((volume, control), value) = (log.random.of(&[(0xFF12, 0xFF14), (0xFF17, 0xFF19), (0xFF21, 0xFF23)]), log.random.byte() | 0x40);
            log.write(volume, value);
            log.write(control, 0x86);
        }
        9 | 10 => {
            let (addr, value) = (log.random.of(&[0xFF13, 0xFF18, 0xFF1D, 0xFF22, 0xFF11, 0xFF16, 0xFF1B, 0xFF20, 0xFF1C]), log.random.byte());
            log.write(addr, value);
        }
        11 => {
            let (addr, value) = (0xFF30 + log.random.below(16) as u16, log.random.byte());
            log.write(addr, value);
        }
        12 => {
            let (addr, value) = (log.random.of(&CONTROLS), log.random.byte());
            log.write(addr, value);
        }
        13 if log.random.one_in(4) => log.power_on(),
        14 => log.look(),
        _ => {}
    }
}

/// Power off, some calls, power on, and everything sounds again.
fn power_cycle(log: &mut Log) {
    log.write(0xFF26, 0);
    let count = log.random.count(3000);
    log.run(count);
    log.power_on();
    log.wave_table();
    (0..4).for_each(|channel| log.sound(channel));
}

/// How a link is played: calls of a record at most, clock records between two things done, the speed, and the calls made, which the divider goes by.
struct Pace {
    most_calls: u64,
    between: u64,
    double: bool,
    at: u64,
}

/// Clock records up to the next thing done. Where the divider's bit 4 changes, a record of up to 1,024 calls ends.
fn pass(log: &mut Log, pace: &mut Pace) {
    for _ in 0..pace.between {
        let whole = pace.most_calls == 1024 && !log.random.one_in(8);
        let count = if whole { 1024 - pace.at % 1024 } else { 1 + log.random.below(pace.most_calls) };
        log.clock_at(pace.double, pace.at, count as u16);
        pace.at += count;
    }
}

/// A log of a chain, of up to 65,536 bytes and about so many half-clocks: all four channels sound and are begun again, at both speeds, while the divider runs.
pub fn link(version: u8, random: Random, most: u64) -> Vec<u8> {
    let mut log = Log::new(version, random);
    let start = log.random.below(4) as u8;
    let (most_calls, between) = log.random.of(&[(1024, 1), (1024, 1), (1024, 4), (16384, 1), (16384, 4), (300, 2), (64, 1)]);
    let mut pace = Pace { most_calls, between, at: log.random.below(1 << 14), double: log.random.one_in(2) };
    let (mut counted, mut length, mut halves_made) = (0, 2, 0);
    power_cycle(&mut log);
    // no turn adds more than 700 bytes
    while halves_made < most && length + 700 < 65536 {
        pass(&mut log, &mut pace);
        event(&mut log);
        pace.double ^= log.random.one_in(60);
        if log.random.one_in(700) {
            power_cycle(&mut log);
        }
        length += log.records[counted..].iter().map(width).sum::<usize>();
        halves_made += log.records[counted..].iter().map(halves).sum::<u64>();
        counted = log.records.len();
    }
    fill(&mut log, length);
    log.bytes(start)
}

/// Reads up to a log of exactly 65,536 bytes, where it is nearly that long.
fn fill(log: &mut Log, length: usize) {
    let mut left = 65536 - length;
    while left <= 800 && left > 0 {
        // a read takes 5 bytes, both PCM reads 3
        match left % 3 {
            0 => log.records.push(Record::Pcm),
            _ => log.read(0xFF26),
        }
        left -= if left % 3 == 0 { 3 } else { 5 };
    }
}

// ---- what can be tried whole

/// States from which every address is written with every byte.
const STATES: usize = 6;
pub const REGISTER_LOGS: u64 = 48 * 256 * STATES as u64 * 4;

fn state(log: &mut Log, number: usize) {
    match number {
        0 => {}
        1 => log.write(0xFF26, 0x80),
        2..=4 => {
            log.write(0xFF26, 0x80);
            log.write(0xFF24, 0x77);
            log.write(0xFF25, 0xFF);
            (0..16).for_each(|i| log.write(0xFF30 + i, 0x1F * i as u8 + 3));
            log.write(0xFF10, 0x1A);
            for (addr, value) in [(0xFF11, 0xBF), (0xFF12, 0xF3), (0xFF13, 0xD0), (0xFF14, 0xC6), (0xFF17, 0xA1), (0xFF18, 0xFD), (0xFF19, 0x87)] {
                log.write(addr, value);
            }
            for (addr, value) in [(0xFF1A, 0x80), (0xFF1C, 0x20), (0xFF1D, 0xFC), (0xFF1E, 0x87), (0xFF20, 0x3E), (0xFF21, 0xF1), (0xFF22, 0x11), (0xFF23, 0xC0)] {
                log.write(addr, value);
            }
            log.clock(false, 0x10, 37);
            if number > 2 {
                log.clock(false, 0, 2);
            }
            if number > 3 {
                log.clock(true, 0x20, 3);
                (0..3).for_each(|_| log.step());
            }
        }
        _ => {
            log.write(0xFF26, 0x80);
            log.write(0xFF1A, 0x80);
            log.write(0xFF1E, 0x87);
            log.clock(false, 0x10, 5);
            log.write(0xFF26, 0);
        }
    }
}

/// Every address and byte, from a handful of states and every start, then clocks and every read.
pub fn register_log(index: u64) -> Vec<u8> {
    let (start, index) = ((index % 4) as u8, index / 4);
    let (number, index) = (index as usize % STATES, index / STATES as u64);
    let mut log = Log::new(1, Random::new(0, 0, 0));
    state(&mut log, number);
    log.write(0xFF10 + (index / 256) as u16, (index % 256) as u8);
    log.records.push(Record::Pcm);
    (0xFF10..0xFF30).for_each(|addr| log.read(addr));
    log.clock(false, 0x10, 26);
    log.clock(false, 0, 26);
    (0xFF10..0xFF40).for_each(|addr| log.read(addr));
    log.records.push(Record::Pcm);
    log.bytes(start)
}

/// Every byte and phase of a record of version 2 with counts about the places where a divider and its bits move, at both speeds, from both half-clocks and both
/// stored bits.
pub const PHASE_LOGS: u64 = 256 * 64 * PHASE_COUNTS.len() as u64 * 2 * 2 * 2;
const PHASE_COUNTS: [u16; 14] = [1, 2, 63, 64, 65, 66, 1023, 1024, 1025, 1026, 2047, 2048, 2049, 2050];

pub fn phase_log(index: u64) -> Vec<u8> {
    let (double, half, bit, index) = (index % 2 == 1, index / 2 % 2 == 1, index / 4 % 2 == 1, index / 8);
    let (count, at) = (PHASE_COUNTS[index as usize % PHASE_COUNTS.len()], index / PHASE_COUNTS.len() as u64);
    let mut log = Log::new(2, Random::new(0, 0, 0));
    log.write(0xFF26, 0x80);
    // every position comes before every kind of place where the bit changes
    for _ in 0..(at / 64 / 32 + at % 64) % 8 {
        log.clock_at(false, 0x10 * 64, 1);
        log.clock_at(false, 0, 1);
    }
    // lengths of 2 and 1, envelopes that step each time, and a sweep
    for (addr, value) in [(0xFF10, 0x11), (0xFF11, 0xBE), (0xFF12, 0xF1), (0xFF14, 0xC2), (0xFF16, 0x3F), (0xFF17, 0x19), (0xFF19, 0xC0)] {
        log.write(addr, value);
    }
    if bit {
        log.clock_at(false, 0x30 * 64, 1);
    }
    if half {
        log.clock_at(true, 0, 1);
    }
    log.clock_at(double, at, count);
    log.read(0xFF26);
    log.records.push(Record::Pcm);
    log.bytes((index % 4) as u8)
}

/// Every log of up to three bytes.
pub const SHORT_LOGS: u64 = 1 + 256 + 65536 + 16777216;

pub fn short_log(index: u64) -> Vec<u8> {
    match index {
        0 => vec![],
        1..=256 => vec![(index - 1) as u8],
        257..=65792 => ((index - 257) as u16).to_be_bytes().to_vec(),
        _ => ((index - 65793) as u32).to_be_bytes()[1..].to_vec(),
    }
}

/// Every address read and written, every kind with every length to 7, every speed byte, and counts about their limits: one record each.
pub const BODY_LOGS: u64 = 131072 + 2048 + 256 + 512;

pub fn body_log(index: u64) -> Vec<u8> {
    let start = (index % 4) as u8;
    match index {
        0..=131071 => one_record(1, start, &address_body(index)),
        131072..=133119 => {
            let (kind, length) = ((index / 8) as u8, index % 8);
            one_record(1, start, &[kind, 0xFF, 0x26, 0x01, 0x01, 0x01, 0x01][..length as usize])
        }
        133120..=133375 => one_record(1, start, &[3, index as u8, 0x10, 0, 30]),
        _ => {
            let [high, low] = count_about(index - 133376).to_be_bytes();
            one_record(1, start, &[3, 0, 0x10, high, low])
        }
    }
}

/// The same of version 2: kinds with every length to 8, every speed with every phase byte, and counts about their limits with phases about theirs.
pub const BODY_LOGS_2: u64 = 131072 + 9 * 256 + 65536 + 4 * 512;

pub fn body_log_2(index: u64) -> Vec<u8> {
    let start = (index % 4) as u8;
    match index {
        0..=131071 => one_record(2, start, &address_body(index)),
        131072..=133375 => {
            let (kind, length) = (((index - 131072) / 9) as u8, (index - 131072) % 9);
            one_record(2, start, &[kind, 0xFF, 0x26, 0x01, 0x01, 0x01, 0x01, 0x01][..length as usize])
        }
        133376..=198911 => {
            let [speed, phase] = ((index - 133376) as u16).to_be_bytes();
            one_record(2, start, &[3, speed, 0x10, phase, 0, 30])
        }
        _ => {
            let (phase, number) = ([0, 63, 64, 255][(index - 198912) as usize / 512], (index - 198912) % 512);
            let [high, low] = count_about(number).to_be_bytes();
            one_record(2, start, &[3, 0, 0x10, phase, high, low])
        }
    }
}

fn one_record(version: u8, start: u8, body: &[u8]) -> Vec<u8> {
    [&[version, start], &(body.len() as u16).to_be_bytes()[..], body].concat()
}

/// Every address read, then every one written.
fn address_body(index: u64) -> Vec<u8> {
    let (high, low) = ((index >> 8) as u8, index as u8);
    if index < 65536 { vec![2, high, low] } else { vec![1, high, low, 0x80] }
}

/// 512 counts: from 0 up, about 16,384, from 65,535 down.
fn count_about(number: u64) -> u16 {
    let number = number as u16;
    match number {
        0..=127 => number,
        128..=383 => 16384 - 128 + (number - 128),
        _ => 65535 - (number - 384),
    }
}
