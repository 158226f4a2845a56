//! Which images are taken: the port's verdict against the second reader's, over single bytes, pairs, the numbers of two bytes, floats and lengths, from twenty
//! images. See host/compare-images.
use crate::generate::{self, Random};
use crate::image::{self, Field, Image, Range, Reader, IMAGE_BYTES, UNIT, UNITS_OF_A_FRAME};
use crate::original;
use crate::port::{done, refused, Lent};
use std::sync::atomic::{AtomicUsize, Ordering::Relaxed};
use std::sync::Mutex;

/// The log without records: what it leaves is what was taken.
const NO_RECORDS: [u8; 2] = [1, 0];

/// What was tried from an image, and the first thing that differs.
#[derive(Clone, Default)]
struct Counts {
    tried: u64,
    taken: u64,
    differing: u64,
    first: Option<String>,
}

impl Counts {
    fn add(&mut self, other: Counts) {
        self.tried += other.tried;
        self.taken += other.taken;
        self.differing += other.differing;
        self.first = self.first.take().or(other.first);
    }
}

/// Tries under way: the reader, what is lent, the counts, and whether to go on after a difference.
struct Tries<'a> {
    reader: &'a Reader,
    lent: Lent,
    counts: Counts,
    keep_going: bool,
}

impl Tries<'_> {
    /// One image: taken exactly if the reader takes it, and then the image after is the same bytes; else refused with 7, and nothing touched.
    fn one(&mut self, image: &[u8], what: impl Fn() -> String) {
        if self.counts.differing > 0 && !self.keep_going {
            return;
        }
        let taken = self.reader.taken(image);
        let told = self.lent.play(image, &NO_RECORDS, 0, IMAGE_BYTES, true);
        self.counts.tried += 1;
        self.counts.taken += u64::from(taken);
        let right = if taken { told == done(0) && self.lent.image_after() == image && self.lent.counts[..3] == [0; 3] } else { told == refused(7, 0) };
        if !right {
            self.counts.differing += 1;
            let verdict = if taken { "taken" } else { "refused" };
            self.counts.first.get_or_insert_with(|| format!("{}: by the reader {verdict}, by the player {told:?}", what()));
        }
    }

    /// A field of an image over some numbers.
    fn numbers(&mut self, base: &Image, field: &Field, numbers: impl Iterator<Item = u64>) {
        let mut image = *base;
        for number in numbers {
            image::set(&mut image, field, number);
            self.one(&image, || format!("{} = {number:X}", field.name));
        }
    }

    /// Two places of an image over all their values.
    fn pair(&mut self, base: &Image, places: [usize; 2]) {
        let mut image = *base;
        for both in 0..=0xFFFFu16 {
            let [first, second] = both.to_be_bytes();
            (image[places[0]], image[places[1]]) = (first, second);
            self.one(&image, || format!("bytes {} and {} = {first:02X} {second:02X}", places[0], places[1]));
        }
    }
}

/// Patterns about a pattern, and with each bit of it turned.
fn about(pattern: u64, bits: u32) -> Vec<u64> {
    let mask = u64::MAX >> (64 - bits);
    let near = (0..9).map(|far| pattern.wrapping_add(far).wrapping_sub(4) & mask);
    near.chain((0..bits).map(|bit| pattern ^ 1 << bit)).collect()
}

/// Patterns of a capacitor: zeros, subnormals, one, infinities, NaNs, and all about them.
fn capacitors(random: &mut Random) -> Vec<u64> {
    let marks = [0.0f32, -0.0, 1.0, -1.0, 0.5, 2.0, f32::MIN_POSITIVE, f32::MAX, f32::INFINITY, f32::NEG_INFINITY, f32::NAN, 14.0 / 15.0];
    let random: Vec<u64> = (0..2000).map(|_| random.below(1 << 32)).collect();
    marks.into_iter().flat_map(|mark| about(u64::from(mark.to_bits()), 32)).chain(random).collect()
}

/// Patterns of the sample counter: zeros, fractions of a unit, powers of two, the frame's own length, infinities, NaNs, and all about them; whole units at
/// random, and half a unit more.
fn counters(random: &mut Random) -> Vec<u64> {
    let whole = |units: u64| (units as f64 * UNIT).to_bits();
    let floats = [0.0, -0.0, 1.0, -1.0, f64::MIN_POSITIVE, f64::MAX, f64::INFINITY, f64::NEG_INFINITY, f64::NAN, UNIT / 2.0, 1_048_576.0 / 44_100.0];
    let mut marks = floats.map(f64::to_bits).to_vec();
    marks.extend((0..=53).map(|power| whole(1 << power)));
    marks.extend([1, 3, UNITS_OF_A_FRAME - 1, UNITS_OF_A_FRAME, UNITS_OF_A_FRAME + 1].map(whole));
    let mut patterns: Vec<u64> = marks.into_iter().flat_map(|mark| about(mark, 64)).collect();
    for _ in 0..2000 {
        let units = random.below(UNITS_OF_A_FRAME) >> random.below(52);
        let half_more = ((units as f64 + 0.5) * UNIT).to_bits();
        patterns.extend([whole(units), half_more, random.next(), random.below(1 << 62)]);
    }
    patterns
}

/// Every byte over all its values.
fn each_byte(tries: &mut Tries, base: &Image) {
    for (at, value) in (0..IMAGE_BYTES).flat_map(|at| (0..=255).map(move |value| (at, value))) {
        let mut image = *base;
        image[at] = value;
        tries.one(&image, || format!("byte {at} = {value:02X}"));
    }
}

/// Every field of more than a byte, and the pairs that hang together.
fn each_field(tries: &mut Tries, base: &Image, reader: &Reader, random: &mut Random) {
    for field in &reader.fields {
        match (field.bytes, field.range) {
            (_, Range::Capacitor) => tries.numbers(base, field, capacitors(random).into_iter()),
            (_, Range::SampleCounter) => tries.numbers(base, field, counters(random).into_iter()),
            (2, _) => tries.numbers(base, field, 0..=0xFFFF),
            (8, _) => tries.numbers(base, field, (0..64).flat_map(|bit| [1u64 << bit, (1 << bit) - 1, 7 | 1 << bit, u64::MAX << bit])),
            (_, Range::Shift) => tries.pair(base, [field.at - 1, field.at]),
            _ => {}
        }
    }
    tries.pair(base, reader.models);
}

/// Other lengths, with the length field as it was and as long as the input is.
fn each_length(tries: &mut Tries, base: &Image) {
    let twice = [&base[..], &base[..]].concat();
    for length in [0, 1, 2, 3, 163, 164, 165, 327, 328] {
        let mut input = twice[..length].to_vec();
        tries.one(&input, || format!("the length {length}"));
        if length >= 3 {
            input[1..3].copy_from_slice(&((length - 3) as u16).to_be_bytes());
        }
        tries.one(&input, || format!("the length {length}, and its own length field"));
    }
}

/// Everything tried from one image.
fn tried(base: &Image, reader: &Reader, seed: u64, keep_going: bool) -> Counts {
    let mut tries = Tries { reader, lent: Lent::new(), counts: Counts::default(), keep_going };
    tries.one(base, || "the image itself".into());
    each_byte(&mut tries, base);
    each_field(&mut tries, base, reader, &mut Random::new(seed, 0, 1));
    each_length(&mut tries, base);
    tries.counts
}

/// Twenty images: the four fresh ones, those that logs leave, and random ones.
fn bases(reader: &Reader, seed: u64) -> Vec<(String, Image)> {
    let mut all: Vec<(String, Image)> = (0..4).map(|start| (format!("fresh, start {start}"), original::image(&original::make(start)))).collect();
    for (number, family) in [0, 1, 3, 4, 5, 6, 7, 11].into_iter().enumerate() {
        let log = crate::log::parse(&generate::make(family, seed, number as u64)).expect("no log of these families is refused");
        let mut unit = original::make(log.start);
        original::play_on(&mut unit, &log.records, &mut original::Answer::default());
        all.push((format!("after a log of {}", generate::FAMILIES[family].0), original::image(&unit)));
    }
    let mut random = Random::new(seed, 0, 2);
    all.extend((1..=8).map(|number| (format!("random {number}"), image::any(reader, &mut random))));
    all
}

fn row(name: &str, counts: &Counts) {
    println!("| {name} | {} | {} | {} | {} |", counts.tried, counts.taken, counts.tried - counts.taken, counts.differing);
}

/// Tries everything from every image, on every processor, up to the first difference unless it is to go on; the status.
pub fn run(seed: u64, keep_going: bool) -> i32 {
    let reader = Reader::new();
    let bases = bases(&reader, seed);
    let (next, done) = (AtomicUsize::new(0), Mutex::new(vec![Counts::default(); bases.len()]));
    std::thread::scope(|scope| {
        for _ in 0..std::thread::available_parallelism().map_or(1, usize::from) {
            scope.spawn(|| loop {
                let number = next.fetch_add(1, Relaxed);
                let Some((_, base)) = bases.get(number) else { break };
                let counts = tried(base, &reader, seed + number as u64, keep_going);
                if counts.differing > 0 && !keep_going {
                    next.store(bases.len(), Relaxed);
                }
                done.lock().expect("no thread panicked")[number] = counts;
            });
        }
    });
    println!("| image | tried | taken | refused | differing |\n|---|---:|---:|---:|---:|");
    let mut total = Counts::default();
    for ((name, _), counts) in bases.iter().zip(done.into_inner().expect("no thread panicked")) {
        row(name, &counts);
        total.add(counts);
    }
    row("all", &total);
    if let Some(first) = &total.first {
        println!("{first}");
    }
    println!("{} images tried, {} taken, {} refused, {} differing", total.tried, total.taken, total.tried - total.taken, total.differing);
    i32::from(total.differing > 0)
}
