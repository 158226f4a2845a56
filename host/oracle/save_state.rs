// A small stand-in for the crate save_state: the state written as request 2026-01 of document 02 has it. Numbers are big-endian in their own width, usize
// in eight bytes, a yes or no is a byte 0 or 1, a float its pattern, an array its elements. What is loaded was judged before.
pub use save_state_derive::Savable;

pub trait Savable {
    fn save(&self, to: &mut Vec<u8>);
    fn load(&mut self, from: &mut &[u8]);
}

fn take<const LENGTH: usize>(from: &mut &[u8]) -> [u8; LENGTH] {
    let (front, rest) = from.split_first_chunk().expect("an image has every field");
    *from = rest;
    *front
}

macro_rules! number {
    ($kind:ty, $number:ident: $save:expr, $bytes:ident: $load:expr) => {
        impl Savable for $kind {
            fn save(&self, to: &mut Vec<u8>) {
                let $number = *self;
                to.extend($save);
            }
            fn load(&mut self, from: &mut &[u8]) {
                let $bytes = take(from);
                *self = $load;
            }
        }
    };
}

number!(u8, number: number.to_be_bytes(), bytes: u8::from_be_bytes(bytes));
number!(u16, number: number.to_be_bytes(), bytes: u16::from_be_bytes(bytes));
number!(i8, number: number.to_be_bytes(), bytes: i8::from_be_bytes(bytes));
number!(usize, number: (number as u64).to_be_bytes(), bytes: u64::from_be_bytes(bytes) as usize);
number!(bool, number: [u8::from(number)], bytes: bytes == [1]);
number!(f32, number: number.to_bits().to_be_bytes(), bytes: f32::from_bits(u32::from_be_bytes(bytes)));
number!(f64, number: number.to_bits().to_be_bytes(), bytes: f64::from_bits(u64::from_be_bytes(bytes)));

impl<T: Savable, const LENGTH: usize> Savable for [T; LENGTH] {
    fn save(&self, to: &mut Vec<u8>) {
        self.iter().for_each(|element| element.save(to));
    }
    fn load(&mut self, from: &mut &[u8]) {
        self.iter_mut().for_each(|element| element.load(from));
    }
}
