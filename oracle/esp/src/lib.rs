//! The Rust's own text, compiled as it stands behind small shims, and one voice that asks it.
//!
//! Nothing of the text is in this repository: `build/` takes the items by name from the folder that ESP_HAL_SRC
//! names. Where that is absent, `AVAILABLE` is false and there is no voice.

include!(concat!(env!("OUT_DIR"), "/list.rs"));

#[cfg(esp_text)]
mod alignment;
#[cfg(esp_text)]
mod regions;
#[cfg(esp_text)]
mod shims;
#[cfg(esp_text)]
mod variants;
#[cfg(esp_text)]
mod voice;

#[cfg(esp_text)]
pub(crate) use regions::psram;
#[cfg(esp_text)]
pub(crate) use shims::trm_markdown_link;
#[cfg(esp_text)]
pub use voice::{external_alignment, sides, voice};

/// Whether a panic in this file is the text's own.
pub fn is_text(file: &str) -> bool {
    file.starts_with(env!("OUT_DIR"))
}

/// How the records are laid out under the text: flags as plain fields, or packed in 32 bits as on the chip.
#[derive(Clone, Copy, PartialEq, Eq, Debug)]
pub enum Shape {
    Plain,
    Bits,
}

#[cfg(not(esp_text))]
mod absent {
    use state::{Direction, Side, Voice};

    pub fn voice(_: crate::Shape) -> Option<Box<dyn Voice>> {
        None
    }

    pub fn sides(_: usize, _: usize) -> Vec<Box<dyn Side>> {
        Vec::new()
    }

    pub fn external_alignment(_: Direction) -> Option<usize> {
        None
    }
}
#[cfg(not(esp_text))]
pub use absent::{external_alignment, sides, voice};
