//! The static library's calls: the one file that names them.
//!
//! A slice is a pointer and a length. A ring is three lent slices: head, starts, cells (see list.rs and ring.rs).
//! The value returned is the refusal's number, 0 where the call is done; `answer` then holds what it answers.

/// Whether the static library is there.
pub const LINKED: bool = cfg!(linked);

/// What every call answers where it is not.
#[cfg(not(linked))]
pub const NOT_LINKED: u32 = u32::MAX;

macro_rules! library {
    ($($(#[$doc:meta])* fn $name:ident($($arg:ident: $ty:ty),* $(,)?);)*) => {
        #[cfg(linked)]
        unsafe extern "C" {
            $($(#[$doc])* pub fn $name($($arg: $ty),*) -> u32;)*
        }
        $(
            $(#[$doc])*
            #[cfg(not(linked))]
            #[allow(clippy::too_many_arguments)]
            pub unsafe fn $name($(_: $ty),*) -> u32 {
                NOT_LINKED
            }
        )*
    };
}

library! {
    /// A receive ring over the first `count` records and a buffer of `length` bytes.
    fn dma_rx_new(head: *mut u64, head_len: usize, starts: *mut u32, starts_len: usize, cells: *mut u16, cells_len: usize,
        count: usize, length: usize);
    /// Links the records in a line and gives all to the DMA.
    fn dma_rx_prepare(head: *mut u64, head_len: usize, starts: *const u32, starts_len: usize, cells: *mut u16, cells_len: usize,
        length: usize);
    /// answer: the bytes that can be read.
    fn dma_rx_available_bytes(head: *const u64, head_len: usize, starts: *const u32, starts_len: usize, cells: *const u16,
        cells_len: usize, length: usize, answer: *mut u64, answer_len: usize);
    /// answer: the part's place in the buffer and its length.
    fn dma_rx_peek(head: *const u64, head_len: usize, starts: *const u32, starts_len: usize, cells: *const u16, cells_len: usize,
        length: usize, answer: *mut u64, answer_len: usize);
    /// Same, ending with the first EOF; the third word of the answer is 1 where it does, else 0.
    fn dma_rx_peek_until_eof(head: *const u64, head_len: usize, starts: *const u32, starts_len: usize, cells: *const u16,
        cells_len: usize, length: usize, answer: *mut u64, answer_len: usize);
    /// answer: bytes taken, records gone back.
    fn dma_rx_consume(head: *mut u64, head_len: usize, starts: *const u32, starts_len: usize, cells: *mut u16, cells_len: usize,
        length: usize, request: usize, answer: *mut u64, answer_len: usize);
    /// answer: the bytes put at the destination's front.
    fn dma_rx_pop(head: *mut u64, head_len: usize, starts: *const u32, starts_len: usize, cells: *mut u16, cells_len: usize,
        buffer: *const u8, buffer_len: usize, destination: *mut u8, destination_len: usize, answer: *mut u64, answer_len: usize);

    /// A transmit ring over the first `count` records and a buffer of `length` bytes.
    fn dma_tx_new(head: *mut u64, head_len: usize, starts: *mut u32, starts_len: usize, cells: *mut u16, cells_len: usize,
        count: usize, length: usize);
    /// Links the records and gives the prefilled bytes to the DMA.
    fn dma_tx_prepare(head: *mut u64, head_len: usize, starts: *const u32, starts_len: usize, cells: *mut u16, cells_len: usize,
        length: usize);
    /// Before prepare, as the next two. answer: the bytes accepted.
    fn dma_tx_prefill(head: *mut u64, head_len: usize, starts: *const u32, starts_len: usize, cells: *const u16, cells_len: usize,
        buffer: *mut u8, buffer_len: usize, data: *const u8, data_len: usize, answer: *mut u64, answer_len: usize);
    /// answer: the offered part's place in the buffer and its length.
    fn dma_tx_offer_prefill(head: *const u64, head_len: usize, starts: *const u32, starts_len: usize, cells: *const u16,
        cells_len: usize, length: usize, answer: *mut u64, answer_len: usize);
    /// answer: the bytes accepted.
    fn dma_tx_commit_prefill(head: *mut u64, head_len: usize, starts: *const u32, starts_len: usize, cells: *const u16,
        cells_len: usize, length: usize, count: usize, answer: *mut u64, answer_len: usize);
    /// answer: the bytes that can be written.
    fn dma_tx_available_bytes(head: *const u64, head_len: usize, starts: *const u32, starts_len: usize, cells: *const u16,
        cells_len: usize, length: usize, answer: *mut u64, answer_len: usize);
    /// answer: the bytes accepted.
    fn dma_tx_push(head: *mut u64, head_len: usize, starts: *const u32, starts_len: usize, cells: *mut u16, cells_len: usize,
        buffer: *mut u8, buffer_len: usize, data: *const u8, data_len: usize, answer: *mut u64, answer_len: usize);
    /// answer: the offered part's place in the buffer and its length.
    fn dma_tx_offer(head: *const u64, head_len: usize, starts: *const u32, starts_len: usize, cells: *const u16, cells_len: usize,
        length: usize, answer: *mut u64, answer_len: usize);
    /// answer: the bytes accepted.
    fn dma_tx_commit(head: *mut u64, head_len: usize, starts: *const u32, starts_len: usize, cells: *mut u16, cells_len: usize,
        length: usize, count: usize, answer: *mut u64, answer_len: usize);
    /// answer: the bytes accepted.
    fn dma_tx_advance(head: *mut u64, head_len: usize, starts: *const u32, starts_len: usize, cells: *mut u16, cells_len: usize,
        length: usize, count: usize, answer: *mut u64, answer_len: usize);

    /// device: one word, 0 stopped, i + 1 on record i. answer: the bytes put in.
    fn dma_rx_step(head: *const u64, head_len: usize, starts: *const u32, starts_len: usize, cells: *mut u16, cells_len: usize,
        buffer: *mut u8, buffer_len: usize, device: *mut u64, device_len: usize, data: *const u8, data_len: usize, eof: u32,
        answer: *mut u64, answer_len: usize);
    /// device: the same. answer: the bytes put at the output's front.
    fn dma_tx_step(head: *const u64, head_len: usize, starts: *const u32, starts_len: usize, cells: *mut u16, cells_len: usize,
        buffer: *const u8, buffer_len: usize, device: *mut u64, device_len: usize, output: *mut u8, output_len: usize,
        answer: *mut u64, answer_len: usize);

    /// direction: 0 in, 1 out. Regions are half-open.
    fn dma_ensure_buffer_compatible(address: u32, length: u32, direction: u32, internal_low: u64, internal_high: u64,
        external_low: u64, external_high: u64, internal_alignment: u32, external_alignment: u32);
    /// chip: 0 ordinary, 1 S2. answer: head, middle, tail.
    fn dma_head_middle_tail(address: u32, length: u32, chip: u32, answer: *mut u64, answer_len: usize);
    /// answer: bytes covered, records used.
    fn dma_build_descriptor_list_for_psram(starts: *mut u32, starts_len: usize, cells: *mut u16, cells_len: usize, count: usize,
        address: u32, length: u32, chip: u32, store_length: usize, answer: *mut u64, answer_len: usize);
    /// answer: 0 in the store or 1 in the range, start, size.
    fn dma_piece(count: usize, address: u32, length: u32, chip: u32, store_length: usize, number: usize, answer: *mut u64,
        answer_len: usize);
}
