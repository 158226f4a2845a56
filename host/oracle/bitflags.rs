// A small stand-in for the crate bitflags: what the oracle's two sets of flags use of it.
#[macro_export]
macro_rules! bitflags {
    ($(#[$meta:meta])* struct $name:ident: $bits:ty { $(const $flag:ident = $value:expr;)* }) => {
        $(#[$meta])*
        #[derive(Clone, Copy)]
        struct $name {
            bits: $bits,
        }
        #[allow(dead_code)]
        impl $name {
            $(const $flag: $name = $name { bits: $value };)*
            fn from_bits_truncate(bits: $bits) -> $name {
                $name { bits: bits & (0 $(| $value)*) }
            }
            fn bits(&self) -> $bits {
                self.bits
            }
            fn contains(&self, other: $name) -> bool {
                self.bits & other.bits == other.bits
            }
        }
    };
}
