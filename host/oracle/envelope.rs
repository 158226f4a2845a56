// The lent envelope against the original's: every current volume and counter, both flags, and the numbers that matter of volume and period.
mod original {
    // The original's file, unchanged, in this module, which may therefore read its fields.
    include!(concat!(env!("ORIGINAL"), "/envelope.rs"));

    impl crate::Lent {
        pub fn original(&self) -> EnvelopGenerator {
            EnvelopGenerator {
                starting_volume: self.starting_volume,
                current_volume: self.current_volume,
                sweep_increase: self.sweep_increase,
                period: self.period,
                envelope_can_run: self.envelope_can_run,
                counter: self.counter,
            }
        }

        pub fn is(&self, e: &EnvelopGenerator) -> bool {
            (self.starting_volume, self.current_volume, self.sweep_increase) == (e.starting_volume, e.current_volume, e.sweep_increase)
                && (self.period, self.envelope_can_run, self.counter) == (e.period, e.envelope_can_run, e.counter)
        }
    }
}

#[repr(C)]
#[derive(Clone, Copy, Debug)]
pub struct Lent {
    starting_volume: u8,
    current_volume: u8,
    sweep_increase: bool,
    period: u8,
    envelope_can_run: bool,
    counter: u8,
}

extern "C" {
    fn envelope_trigger(e: &mut Lent);
    fn envelope_clock(e: &mut Lent);
}

const MARKS: [u8; 13] = [0, 1, 2, 7, 8, 9, 14, 15, 16, 127, 128, 254, 255];

fn main() {
    let (mut cases, mut differ) = (0u64, 0u64);
    let mut compare = |what: &str, before: Lent, after: Lent, wanted: &original::EnvelopGenerator| {
        cases += 1;
        if !after.is(wanted) {
            differ += 1;
            if differ < 6 {
                println!("{what} of {before:?} gives {after:?}");
            }
        }
    };
    for number in 0..13 * 256 * 2 * 13 * 2 * 256 {
        let (rest, counter) = (number / 256, (number % 256) as u8);
        let (rest, current_volume) = (rest / 256, (rest % 256) as u8);
        let (rest, sweep_increase) = (rest / 2, rest % 2 == 1);
        let (rest, envelope_can_run) = (rest / 2, rest % 2 == 1);
        let e = Lent { starting_volume: MARKS[rest / 13], current_volume, sweep_increase, period: MARKS[rest % 13], envelope_can_run, counter };
        let (mut lent, mut wanted) = (e, e.original());
        // SAFETY: the envelope is this function's own, laid out as C does, and each call is proved to touch nothing else.
        unsafe { envelope_clock(&mut lent) };
        wanted.clock();
        compare("clock", e, lent, &wanted);
        let (mut lent, mut wanted) = (e, e.original());
        // SAFETY: as above.
        unsafe { envelope_trigger(&mut lent) };
        wanted.trigger();
        compare("trigger", e, lent, &wanted);
    }
    println!("{cases} clocks and triggers, {differ} differ");
    std::process::exit(i32::from(differ > 0));
}
