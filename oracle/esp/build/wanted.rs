//! Which items of which files each module of the crate is made of. Names only: the text is read at build time.

pub struct Wanted {
    pub file: &'static str,
    pub header: &'static str,
    /// Which of the items with this header, where the file has several.
    pub nth: usize,
    pub several: bool,
}

const fn one(file: &'static str, header: &'static str) -> Wanted {
    Wanted { file, header, nth: 0, several: false }
}

const fn nth(file: &'static str, header: &'static str, nth: usize) -> Wanted {
    Wanted { file, header, nth, several: true }
}

const BUFFERS: &str = "src/dma/buffers/mod.rs";
const DMA: &str = "src/dma/mod.rs";
const SOC: &str = "src/soc/mod.rs";

pub const MODULES: &[(&str, &[Wanted])] =
    &[("align", ALIGN), ("align_methods", ALIGN_METHODS), ("records", RECORDS), ("burst", BURST), ("stream", STREAM), ("pieces", PIECES)];

/// Methods taken out of a long `impl` stand in one of their own.
pub const WRAPPED: &[(&str, &str)] = &[("align_methods", "impl BurstConfig")];

const ALIGN: &[Wanted] = &[
    one(BUFFERS, "pub enum DmaBufError"),
    one(BUFFERS, "pub enum DmaAlignmentError"),
    one(BUFFERS, "impl From<DmaAlignmentError> for DmaBufError"),
    one(BUFFERS, "pub enum TransferDirection"),
    one(BUFFERS, "const fn max("),
    one(SOC, "pub(crate) fn is_slice_in_dram<"),
    one(SOC, "pub(crate) fn is_valid_psram_address("),
    one(SOC, "pub(crate) fn is_slice_in_psram<"),
    one(SOC, "fn slice_in_range<"),
    one(SOC, "pub(crate) fn addr_in_range("),
];

const ALIGN_METHODS: &[Wanted] =
    &[one(BUFFERS, "fn min_alignment("), one(BUFFERS, "fn ensure_buffer_aligned("), one(BUFFERS, "fn ensure_buffer_compatible(")];

const RECORDS: &[Wanted] = &[
    one(DMA, "bitfield::bitfield! {"),
    one(DMA, "impl Debug for DmaDescriptorFlags"),
    one(DMA, "pub struct DmaDescriptor {"),
    one(DMA, "impl DmaDescriptor {"),
    one(DMA, "pub enum Owner"),
];

const BURST: &[Wanted] = &[
    one(BUFFERS, "pub enum TransferDirection"),
    one(BUFFERS, "pub enum ExternalBurstConfig"),
    nth(BUFFERS, "impl ExternalBurstConfig {", 0),
    nth(BUFFERS, "impl ExternalBurstConfig {", 1),
    one(BUFFERS, "impl Default for ExternalBurstConfig"),
    one(BUFFERS, "pub enum InternalBurstConfig"),
    nth(BUFFERS, "impl InternalBurstConfig {", 0),
    one(BUFFERS, "impl Default for InternalBurstConfig"),
    one(BUFFERS, "pub struct BurstConfig"),
    nth(BUFFERS, "impl BurstConfig {", 0),
    nth(BUFFERS, "impl Default for BurstConfig", 0),
];

const STREAM: &[Wanted] = &[
    one(BUFFERS, "pub enum DmaBufError"),
    one(BUFFERS, "pub enum DmaAlignmentError"),
    one(BUFFERS, "pub struct Preparation"),
    one(BUFFERS, "pub unsafe trait DmaTxBuffer"),
    one(BUFFERS, "pub unsafe trait DmaRxBuffer"),
    one(BUFFERS, "pub struct DmaRxStreamBuf {"),
    one(BUFFERS, "impl DmaRxStreamBuf {"),
    one(BUFFERS, "unsafe impl DmaRxBuffer for DmaRxStreamBuf {"),
    one(BUFFERS, "pub struct DmaRxStreamBufView {"),
    one(BUFFERS, "impl DmaRxStreamBufView {"),
    one(BUFFERS, "pub struct DmaTxStreamBuf {"),
    one(BUFFERS, "impl DmaTxStreamBuf {"),
    one(BUFFERS, "fn mark_tx_stream_descriptors_ready("),
    one(BUFFERS, "fn terminate_tx_stream_at("),
    one(BUFFERS, "fn advance_tx_stream_descriptors("),
    one(BUFFERS, "unsafe impl DmaTxBuffer for DmaTxStreamBuf {"),
    one(BUFFERS, "pub struct DmaTxStreamBufView {"),
    one(BUFFERS, "impl DmaTxStreamBufView {"),
];

const PIECES: &[Wanted] = &[
    one(DMA, "struct DescriptorSet<"),
    one(BUFFERS, "fn build_descriptor_list_for_psram("),
    one(BUFFERS, "fn get_range("),
    one(BUFFERS, "struct DescriptorChainingIter<"),
    one(BUFFERS, "impl<'a> DescriptorChainingIter<"),
    one(BUFFERS, "const MIN_LAST_DMA_LEN:"),
    one(BUFFERS, "const BUF_LEN:"),
    one(BUFFERS, "pub(crate) struct ManualWritebackBuffer {"),
    one(BUFFERS, "impl ManualWritebackBuffer {"),
];
