// The original's sound unit as a library: its own files beside this one, unchanged.
#[allow(dead_code)]
pub mod apu;

pub use save_state::Savable;

// Of the original's configuration only the model is read.
#[derive(Clone, Copy, Default, Savable)]
pub struct GameBoyConfig {
    pub is_dmg: bool,
}
