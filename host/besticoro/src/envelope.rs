//! The volume envelope that a host keeps itself.

/// A channel's volume envelope. Its numbers may be any.
#[repr(C)]
#[derive(Clone, Copy, Debug, Default, PartialEq, Eq)]
pub struct Envelope {
    pub starting_volume: u8,
    pub current_volume: u8,
    pub sweep_increase: bool,
    pub period: u8,
    pub envelope_can_run: bool,
    pub counter: u8,
}

impl Envelope {
    /// The trigger of its channel: volume and counter are set again, and it runs.
    pub fn trigger(&mut self) {
        crate::entries::step(self, true);
    }

    /// A clock of the sequencer.
    pub fn clock(&mut self) {
        crate::entries::step(self, false);
    }
}

#[cfg(test)]
#[test]
fn steps() {
    let mut e = Envelope { starting_volume: 9, period: 2, sweep_increase: true, ..Envelope::default() };
    e.trigger();
    e.clock();
    assert_eq!((e.current_volume, e.counter, e.envelope_can_run), (9, 1, true));
    e.clock();
    assert_eq!((e.current_volume, e.counter), (10, 2));
}
