//! Module 1: the text's alignment check over settable regions and alignments.

use state::{Align, Answer, Direction};

#[allow(unused, unexpected_cfgs)]
mod text {
    use core::ops::Range;

    macro_rules! memory_range {
        ("DRAM") => {
            crate::regions::internal()
        };
    }

    include!(concat!(env!("OUT_DIR"), "/align.rs"));
    include!(concat!(env!("OUT_DIR"), "/align_methods.rs"));

    /// The two alignments as given, whatever the direction.
    #[derive(Clone, Copy)]
    pub struct BurstConfig {
        pub internal: usize,
        pub external_memory: External,
    }

    #[derive(Clone, Copy)]
    pub struct External(pub usize);

    impl External {
        fn min_psram_alignment(self, _: TransferDirection) -> usize {
            self.0
        }
    }

    impl BurstConfig {
        fn min_dram_alignment(self, _: TransferDirection) -> usize {
            self.internal
        }

        pub fn ask(self, buffer: &[u8], direction: TransferDirection) -> Result<(), DmaBufError> {
            self.ensure_buffer_compatible(buffer, direction)
        }
    }
}

use text::{BurstConfig, DmaAlignmentError, DmaBufError, External, TransferDirection};

pub fn ask(a: &Align) -> Answer {
    let base = crate::regions::base_for((a.internal_alignment, a.external_alignment));
    crate::regions::set(base, a.internal, a.external);
    let external_memory = External(a.external_alignment as usize);
    let config = BurstConfig { internal: a.internal_alignment as usize, external_memory };
    let direction = match a.direction {
        Direction::Receive => TransferDirection::In,
        Direction::Transmit => TransferDirection::Out,
    };
    let address = (base + a.address as usize) as *const u8;
    // SAFETY: the text reads the slice's place and length, never a byte of it.
    let buffer = unsafe { core::slice::from_raw_parts(address, a.length as usize) };
    match config.ask(buffer, direction) {
        Ok(()) => Answer::Done,
        Err(DmaBufError::UnsupportedMemoryRegion) => Answer::Refused(9),
        Err(DmaBufError::InvalidAlignment(DmaAlignmentError::Address)) => Answer::Refused(10),
        Err(DmaBufError::InvalidAlignment(DmaAlignmentError::Size)) => Answer::Refused(11),
        Err(other) => panic!("an answer the text has no reason for: {other:?}"),
    }
}
