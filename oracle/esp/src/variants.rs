//! The text in its variants. Each module includes the same text; the shims around it differ.

/// The rings over one layout of records.
macro_rules! rings {
    ($module:ident, $flags:ident, $name:literal) => {
        #[allow(unused, unexpected_cfgs)]
        pub mod $module {
            use core::fmt::Debug;
            use core::ptr::null_mut;

            use crate::shims::DmaAlignedMut;

            mod bitfield {
                pub(crate) use crate::shims::$flags as bitfield;
            }

            const NAME: &str = $name;

            include!(concat!(env!("OUT_DIR"), "/records.rs"));
            include!(concat!(env!("OUT_DIR"), "/burst.rs"));
            include!(concat!(env!("OUT_DIR"), "/stream.rs"));
            include!("inside/records.rs");
            include!("inside/receive.rs");
            include!("inside/transmit.rs");
            include!("inside/side.rs");
        }
    };
}

/// The head and tail split on one kind of chip: `cfg!` in the text asks for the chip's name.
macro_rules! splits {
    ($module:ident, $is_s2:literal) => {
        #[allow(unused, unexpected_cfgs, clippy::all)]
        pub mod $module {
            use core::fmt::Debug;
            use core::mem::MaybeUninit;
            use core::ops::Range;
            use core::ptr::NonNull;

            use crate::shims::{DmaAlignedMut, InternalMemory};

            macro_rules! cfg {
                (esp32s2) => {
                    $is_s2
                };
                (esp32) => {
                    false
                };
            }

            macro_rules! unwrap {
                ($value:expr) => {
                    $value.unwrap()
                };
            }

            mod bitfield {
                pub(crate) use crate::shims::packed as bitfield;
            }

            include!(concat!(env!("OUT_DIR"), "/records.rs"));
            include!(concat!(env!("OUT_DIR"), "/burst.rs"));
            include!(concat!(env!("OUT_DIR"), "/pieces.rs"));
            include!("inside/records.rs");
            include!("inside/pieces.rs");
        }
    };
}

rings!(plain, plain, "Rust, plain records");
rings!(bits, packed, "Rust, packed records");
splits!(ordinary, false);
splits!(s2, true);
