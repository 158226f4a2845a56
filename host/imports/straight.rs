//! The original driven straight from a VGM file, so that no log stands between: it counts clocks and moves the divider itself.
use crate::original::{self, Answer};
use oracle::apu::Apu;

/// What playing a file came to: the bytes of its frames, how many they are, the clock calls, and the samples waited.
pub struct Played {
    pub bytes: Vec<u8>,
    pub frames: u64,
    pub clocks: u64,
    pub samples: u64,
}

/// What a wait command waits: its samples and its bytes. Nothing for another command.
fn wait(commands: &[u8]) -> Option<(u64, usize)> {
    match *commands {
        [0x61, low, high, ..] => Some((u64::from(u16::from_le_bytes([low, high])), 3)),
        [0x62, ..] => Some((735, 1)),
        [0x63, ..] => Some((882, 1)),
        [byte @ 0x70..=0x7F, ..] => Some((u64::from(byte & 0x0F) + 1, 1)),
        _ => None,
    }
}

/// Clocks the unit up to a sample, with all calls made before: call j from 0, at normal speed, sees the divider j/64 modulo 256.
fn run_to(unit: &mut Apu, sample: u64, calls: &mut u64) {
    while *calls < sample * 262144 / 11025 {
        unit.clock(false, (*calls / 64 % 256) as u8);
        *calls += 1;
    }
}

/// Plays a file that is imported, up to its end command, on a fresh DMG unit that is switched on first.
pub fn play(file: &[u8]) -> Played {
    let offset = u32::from_le_bytes(file[0x34..0x38].try_into().expect("four bytes"));
    let mut commands = &file[0x34 + offset as usize..];
    let (mut unit, mut answer, mut calls, mut samples) = (original::make(1), Answer::default(), 0, 0);
    unit.write_register(0xFF26, 0x80);
    while commands[0] != 0x66 {
        let length = match wait(commands) {
            Some((more, length)) => {
                samples += more;
                run_to(&mut unit, samples, &mut calls);
                original::take_frames(&mut unit, &mut answer);
                length
            }
            None => {
                unit.write_register(0xFF10 + u16::from(commands[1]), commands[2]);
                3
            }
        };
        commands = &commands[length..];
    }
    Played { bytes: answer.bytes, frames: answer.frames, clocks: calls, samples }
}
