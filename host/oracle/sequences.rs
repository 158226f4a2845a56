// Plays the commands of crates/sequences/stdin on the original and prints what that program prints.
use save_state::Savable;
use std::io::{Read, Write};

#[allow(dead_code)]
mod apu;

// Of the original's configuration only the model is read.
#[derive(Clone, Copy, Default, Savable)]
pub struct GameBoyConfig {
    pub is_dmg: bool,
}

fn make(start: u8) -> apu::Apu {
    let config = GameBoyConfig { is_dmg: start & 1 == 1 };
    if start & 2 == 2 {
        apu::Apu::new_skip_boot_rom(config)
    } else {
        apu::Apu::new(config)
    }
}

fn sounds(addr: u16) -> bool {
    (0xFF10..=0xFF3F).contains(&addr)
}

// The frames that the unit has pushed since it was last asked.
fn frames(unit: &mut apu::Apu, out: &mut String) {
    let buffers = unit.get_buffers();
    let parts = [buffers.pulse1(), buffers.pulse2(), buffers.wave(), buffers.noise(), buffers.all()];
    for at in (0..parts[0].len()).step_by(2) {
        out.push('F');
        for part in parts {
            for side in 0..2 {
                out.push_str(&format!(" {:08X}", part[at + side].to_bits()));
            }
        }
        out.push('\n');
    }
}

fn main() {
    let mut bytes = Vec::new();
    std::io::stdin().read_to_end(&mut bytes).expect("standard input");
    let mut unit = make(1);
    let mut out = String::new();
    for command in bytes.chunks_exact(5) {
        let addr = u16::from(command[1]) * 256 + u16::from(command[2]);
        match command[0] {
            0 => {
                unit = make(command[1]);
                out.push_str(&format!("U {:02X}\n", command[1]));
            }
            1 if sounds(addr) => unit.write_register(addr, command[3]),
            2 if sounds(addr) => out.push_str(&format!("R {:04X} {:02X}\n", addr, unit.read_register(addr))),
            1 | 2 => out.push_str("X\n"),
            3 => {
                for _ in 0..u16::from(command[3]) * 256 + u16::from(command[4]) {
                    unit.clock(command[1] == 1, command[2]);
                }
                frames(&mut unit, &mut out);
            }
            _ => out.push_str(&format!("P {:02X} {:02X}\n", unit.read_pcm12(), unit.read_pcm34())),
        }
    }
    std::io::stdout().write_all(out.as_bytes()).expect("standard output");
}
