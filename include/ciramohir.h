/* The proved DMA stream rings, for C.
 *
 * Link with libcapi.a (`tools/library` writes target/staticlib/libcapi.a). Every function is proved to meet its contract in
 * crates/capi/src for every input that the language calls a call: pointers that may be read, and written where they are not const,
 * over the length passed with them, and no two of one call's written slices overlapping each other or a slice it reads. An empty
 * slice still wants a pointer that is not null.
 *
 * A ring is three lent slices:
 *   head    5 words: count of records, the cursor's record, the cursor's offset, tally of bytes, prefilled count
 *   starts  64 words of 32 bits: where each record's part of the byte buffer begins
 *   cells   320 words of 16 bits, five blocks of 64: size, length, next (0 none, j + 1 record j), owner (0 CPU, 1 DMA), EOF (0, 1)
 * The byte buffer stays the caller's; calls that do not touch its bytes take its length alone.
 *
 * Each call returns 0 where it is done and else the number of its refusal, and then nothing at all is changed. What it answers is
 * written to `answer`, three words; a word that an answer does not use is set to 0.
 *
 * Refused with 5, before the call's other refusals: an answer of fewer than 3 words; a head that is not 5 words long or whose tally
 * word is 2^32 or more; starts or cells of another length, or with an owner or EOF above 1. But `new` reads no word of the head, and
 * judges starts and cells last, after its own 1 to 4; the list of pieces judges them after its 4.
 */
#ifndef CIRAMOHIR_H
#define CIRAMOHIR_H

#include <stddef.h>
#include <stdint.h>

#ifdef __cplusplus
extern "C" {
#endif

#define DMA_HEAD_WORDS 5
#define DMA_LIMIT 64
#define DMA_CELLS (5 * DMA_LIMIT)
#define DMA_ANSWER_WORDS 3

/* The words of a head, and the blocks of the cells. */
enum dma_head { DMA_COUNT, DMA_RECORD, DMA_OFFSET, DMA_TALLY, DMA_PREFILLED };
enum dma_block { DMA_SIZE = 0, DMA_LENGTH = 64, DMA_NEXT = 128, DMA_OWNER = 192, DMA_EOF = 256 };

enum dma_refusal {
    DMA_DONE = 0,
    DMA_INSUFFICIENT_DESCRIPTORS = 1,
    DMA_INVALID_CHUNK_SIZE = 2,
    DMA_UNEVEN_SPLIT = 3,
    DMA_TOO_MANY_DESCRIPTORS = 4,
    DMA_BAD_STATE = 5,
    DMA_BAD_STEP = 6,
    DMA_STOPPED = 7,
    DMA_TOO_MUCH = 8,
    DMA_UNSUPPORTED_MEMORY_REGION = 9,
    DMA_INVALID_ALIGNMENT_ADDRESS = 10,
    DMA_INVALID_ALIGNMENT_SIZE = 11,
    DMA_BAD_ALIGNMENT = 12
};

enum dma_direction { DMA_IN = 0, DMA_OUT = 1 };
enum dma_chip { DMA_ORDINARY = 0, DMA_S2 = 1 };

/* ---- the receive ring; length is the byte buffer's */

/* Splits a buffer of so many bytes over the first `count` records. Starts and cells are the lent records: zero them before the first
 * use (an owner or EOF above 1 in any of the 64 is no record's); what the split does not set stays. The head's words may hold
 * anything. The bytes between two readings of the tally are (uint32_t)(later - earlier). */
uint32_t dma_rx_new(uint64_t *head, size_t head_len, uint32_t *starts, size_t starts_len, uint16_t *cells, size_t cells_len,
                    size_t count, size_t length);
uint32_t dma_rx_prepare(uint64_t *head, size_t head_len, const uint32_t *starts, size_t starts_len, uint16_t *cells,
                        size_t cells_len, size_t length);
/* answer: bytes */
uint32_t dma_rx_available_bytes(const uint64_t *head, size_t head_len, const uint32_t *starts, size_t starts_len,
                                const uint16_t *cells, size_t cells_len, size_t length, uint64_t *answer, size_t answer_len);
/* answer: place in the buffer, length (0 where there is nothing to show) */
uint32_t dma_rx_peek(const uint64_t *head, size_t head_len, const uint32_t *starts, size_t starts_len, const uint16_t *cells,
                     size_t cells_len, size_t length, uint64_t *answer, size_t answer_len);
/* answer: place, length, 1 where the part ends with an EOF record */
uint32_t dma_rx_peek_until_eof(const uint64_t *head, size_t head_len, const uint32_t *starts, size_t starts_len,
                               const uint16_t *cells, size_t cells_len, size_t length, uint64_t *answer, size_t answer_len);
/* answer: bytes taken, records gone back */
uint32_t dma_rx_consume(uint64_t *head, size_t head_len, const uint32_t *starts, size_t starts_len, uint16_t *cells,
                        size_t cells_len, size_t length, size_t request, uint64_t *answer, size_t answer_len);
/* answer: bytes taken */
uint32_t dma_rx_pop(uint64_t *head, size_t head_len, const uint32_t *starts, size_t starts_len, uint16_t *cells, size_t cells_len,
                    const uint8_t *buffer, size_t buffer_len, uint8_t *destination, size_t destination_len, uint64_t *answer,
                    size_t answer_len);

/* ---- the transmit ring */

uint32_t dma_tx_new(uint64_t *head, size_t head_len, uint32_t *starts, size_t starts_len, uint16_t *cells, size_t cells_len,
                    size_t count, size_t length);
/* Before prepare. answer: bytes accepted; of the offer: place, length */
uint32_t dma_tx_prefill(uint64_t *head, size_t head_len, const uint32_t *starts, size_t starts_len, const uint16_t *cells,
                        size_t cells_len, uint8_t *buffer, size_t buffer_len, const uint8_t *data, size_t data_len,
                        uint64_t *answer, size_t answer_len);
uint32_t dma_tx_offer_prefill(const uint64_t *head, size_t head_len, const uint32_t *starts, size_t starts_len,
                              const uint16_t *cells, size_t cells_len, size_t length, uint64_t *answer, size_t answer_len);
uint32_t dma_tx_commit_prefill(uint64_t *head, size_t head_len, const uint32_t *starts, size_t starts_len, const uint16_t *cells,
                               size_t cells_len, size_t length, size_t count, uint64_t *answer, size_t answer_len);
uint32_t dma_tx_prepare(uint64_t *head, size_t head_len, const uint32_t *starts, size_t starts_len, uint16_t *cells,
                        size_t cells_len, size_t length);
/* After it. answer: bytes; of the offer: place, length */
uint32_t dma_tx_available_bytes(const uint64_t *head, size_t head_len, const uint32_t *starts, size_t starts_len,
                                const uint16_t *cells, size_t cells_len, size_t length, uint64_t *answer, size_t answer_len);
uint32_t dma_tx_push(uint64_t *head, size_t head_len, const uint32_t *starts, size_t starts_len, uint16_t *cells, size_t cells_len,
                     uint8_t *buffer, size_t buffer_len, const uint8_t *data, size_t data_len, uint64_t *answer,
                     size_t answer_len);
uint32_t dma_tx_offer(const uint64_t *head, size_t head_len, const uint32_t *starts, size_t starts_len, const uint16_t *cells,
                      size_t cells_len, size_t length, uint64_t *answer, size_t answer_len);
uint32_t dma_tx_commit(uint64_t *head, size_t head_len, const uint32_t *starts, size_t starts_len, uint16_t *cells,
                       size_t cells_len, size_t length, size_t count, uint64_t *answer, size_t answer_len);
uint32_t dma_tx_advance(uint64_t *head, size_t head_len, const uint32_t *starts, size_t starts_len, uint16_t *cells,
                        size_t cells_len, size_t length, size_t count, uint64_t *answer, size_t answer_len);

/* ---- the device, to run a ring without a chip. device: one word, 0 stopped, i + 1 on record i; it starts at 1.
 * answer: bytes put in, bytes sent. eof: 0 or 1. Any other eof, a device of another length than 1, and a word above the count of
 * records are refused with 5, and so is an output shorter than the record's length; a stopped device with 7; incoming bytes of 0 or
 * more than the record's size with 6. */
uint32_t dma_rx_step(const uint64_t *head, size_t head_len, const uint32_t *starts, size_t starts_len, uint16_t *cells,
                     size_t cells_len, uint8_t *buffer, size_t buffer_len, uint64_t *device, size_t device_len,
                     const uint8_t *incoming, size_t incoming_len, uint32_t eof, uint64_t *answer, size_t answer_len);
uint32_t dma_tx_step(const uint64_t *head, size_t head_len, const uint32_t *starts, size_t starts_len, uint16_t *cells,
                     size_t cells_len, const uint8_t *buffer, size_t buffer_len, uint64_t *device, size_t device_len,
                     uint8_t *output, size_t output_len, uint64_t *answer, size_t answer_len);

/* ---- alignment. Regions are half-open; pass 1 as the external alignment for DMA_OUT, as esp-hal does by itself.
 * A direction above 1 is refused with 5, before all else. */
uint32_t dma_ensure_buffer_compatible(uint32_t address, uint32_t length, uint32_t direction, uint64_t internal_low,
                                      uint64_t internal_high, uint64_t external_low, uint64_t external_high,
                                      uint32_t internal_alignment, uint32_t external_alignment);

/* ---- head and tail of a range. A chip above 1 is refused with 5, before all else. Pieces are numbered from 0. */

/* answer: head, middle, tail */
uint32_t dma_head_middle_tail(uint32_t address, uint32_t length, uint32_t chip, uint64_t *answer, size_t answer_len);
/* answer: bytes covered, records used */
uint32_t dma_build_descriptor_list_for_psram(uint32_t *starts, size_t starts_len, uint16_t *cells, size_t cells_len, size_t count,
                                             uint32_t address, uint32_t length, uint32_t chip, size_t store_length,
                                             uint64_t *answer, size_t answer_len);
/* answer: 0 in the bounce store or 1 in the range, start, size */
uint32_t dma_piece(size_t count, uint32_t address, uint32_t length, uint32_t chip, size_t store_length, size_t number,
                   uint64_t *answer, size_t answer_len);

#ifdef __cplusplus
}
#endif

#endif
