//! The original's answer to a log: its own sound unit, unchanged, driven by the records; and its state as an image.
use crate::image::Image;
use crate::log::{divider_at, Record, Refused};
use oracle::{apu::Apu, GameBoyConfig, Savable};

/// What playing comes to.
#[derive(Default)]
pub struct Answer {
    pub bytes: Vec<u8>,
    pub frames: u64,
    pub clocks: u64,
    pub records: u64,
}

/// The unit that a start byte asks for.
pub fn make(start: u8) -> Apu {
    let config = GameBoyConfig { is_dmg: start & 1 == 1 };
    if start & 2 == 2 {
        Apu::new_skip_boot_rom(config)
    } else {
        Apu::new(config)
    }
}

/// The unit's state as an image: version 1, the length of the rest, and the fields as the original itself saves them.
pub fn image(unit: &Apu) -> Image {
    let mut rest = Vec::new();
    unit.save(&mut rest);
    let mut image = vec![1];
    image.extend((rest.len() as u16).to_be_bytes());
    image.extend(rest);
    image.try_into().expect("the original saves 161 bytes")
}

/// The unit of an image that is taken: every field as the original itself loads it, what an image leaves out as it is fresh.
pub fn take_up(image: &[u8]) -> Apu {
    let mut unit = make(0);
    let mut rest = &image[3..];
    unit.load(&mut rest);
    assert!(rest.is_empty(), "the original loads 161 bytes");
    unit
}

/// The frames that the unit has pushed since it was last asked.
pub fn take_frames(unit: &mut Apu, answer: &mut Answer) {
    let buffers = unit.get_buffers();
    let parts = [buffers.pulse1(), buffers.pulse2(), buffers.wave(), buffers.noise(), buffers.all()];
    for at in (0..parts[0].len()).step_by(2) {
        let mut frame = [0x46; 41];
        for (number, part) in parts.iter().enumerate() {
            for side in 0..2 {
                frame[1 + number * 8 + side * 4..][..4].copy_from_slice(&part[at + side].to_bits().to_be_bytes());
            }
        }
        answer.bytes.extend(frame);
        answer.frames += 1;
    }
}

/// Plays records on a unit; what they make is put behind what the answer has.
pub fn play_on(unit: &mut Apu, records: &[Record], answer: &mut Answer) {
    answer.records += records.len() as u64;
    for record in records {
        match *record {
            Record::Write { addr, value } => unit.write_register(addr, value),
            Record::Read { addr } => {
                let byte = unit.read_register(addr);
                answer.bytes.extend([0x52, byte]);
            }
            Record::Clock { double, divider, phase, count } => {
                for i in 0..count {
                    unit.clock(double, divider_at(divider, phase, i));
                }
                answer.clocks += u64::from(count);
                take_frames(unit, answer);
            }
            Record::Pcm => answer.bytes.extend([0x50, unit.read_pcm12(), unit.read_pcm34()]),
        }
    }
}

pub fn play_records(start: u8, records: &[Record]) -> Answer {
    let mut answer = Answer::default();
    play_on(&mut make(start), records, &mut answer);
    answer
}

/// The answer to a log's bytes on the unit of an image that is taken.
pub fn play_from(image: &Image, log: &[u8]) -> Result<Answer, Refused> {
    let log = crate::log::parse(log)?;
    let mut answer = Answer::default();
    play_on(&mut take_up(image), &log.records, &mut answer);
    Ok(answer)
}

/// The answer to a log's bytes where there is room enough.
pub fn play(log: &[u8]) -> Result<Answer, Refused> {
    let log = crate::log::parse(log)?;
    Ok(play_records(log.start, &log.records))
}
