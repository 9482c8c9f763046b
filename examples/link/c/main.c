/* Document 01's run on row D: four records over 14 bytes. A device fills the receive ring, the firmware takes the bytes; then the
 * transmit ring is prefilled, prepared and pushed to. Only ciramohir.h and libcapi.a are used. */
#include <stdio.h>

#include "ciramohir.h"

#define LEN 14

struct ring {
    uint64_t head[DMA_HEAD_WORDS];
    uint32_t starts[DMA_LIMIT];
    uint16_t cells[DMA_CELLS];
    uint8_t buffer[LEN];
    uint64_t device;
};

/* A ring's three slices, as every call takes them. */
#define RING(r) (r)->head, DMA_HEAD_WORDS, (r)->starts, DMA_LIMIT, (r)->cells, DMA_CELLS

static uint64_t answer[DMA_ANSWER_WORDS];
#define ANSWER answer, DMA_ANSWER_WORDS

static void part(const uint8_t *bytes, size_t len) {
    for (size_t i = 0; i < len; i++) printf(" %02x", bytes[i]);
}

static void told(const char *call, uint32_t number) {
    if (number != DMA_DONE) printf("%s: refused with %u\n", call, number);
}

static void fill(struct ring *r, const uint8_t *bytes, size_t len, uint32_t eof) {
    told("fill", dma_rx_step(RING(r), r->buffer, LEN, &r->device, 1, bytes, len, eof, ANSWER));
}

static void pop(struct ring *r, size_t k) {
    uint8_t to[LEN];
    told("pop", dma_rx_pop(RING(r), r->buffer, LEN, to, k, ANSWER));
    printf("pop %zu:", k);
    part(to, answer[0]);
    printf(", cursor (%llu,%llu)\n", (unsigned long long)r->head[DMA_RECORD], (unsigned long long)r->head[DMA_OFFSET]);
}

static void receive(void) {
    struct ring r = {.device = 1};
    told("new", dma_rx_new(RING(&r), 4, LEN));
    told("prepare", dma_rx_prepare(RING(&r), LEN));
    printf("sizes: %u %u %u %u\n", r.cells[DMA_SIZE], r.cells[DMA_SIZE + 1], r.cells[DMA_SIZE + 2], r.cells[DMA_SIZE + 3]);
    fill(&r, (const uint8_t[]){1, 2, 3}, 3, 0);
    fill(&r, (const uint8_t[]){4, 5}, 2, 1);
    told("available", dma_rx_available_bytes(RING(&r), LEN, ANSWER));
    printf("available: %llu\n", (unsigned long long)answer[0]);
    told("peek", dma_rx_peek_until_eof(RING(&r), LEN, ANSWER));
    printf("peek_until_eof:");
    part(r.buffer + answer[0], answer[1]);
    printf(", %s\n", answer[2] ? "yes" : "no");
    pop(&r, 4);
    pop(&r, 4);
    fill(&r, (const uint8_t[]){6, 7, 8}, 3, 0);
    fill(&r, (const uint8_t[]){9, 10, 11, 12, 13}, 5, 0);
    pop(&r, 5);
    told("peek", dma_rx_peek(RING(&r), LEN, ANSWER));
    printf("peek:");
    part(r.buffer + answer[0], answer[1]);
    printf("\n");
    told("consume", dma_rx_consume(RING(&r), LEN, 100, ANSWER));
    printf("consume 100: %llu bytes, %llu records back, tally %llu\n", (unsigned long long)answer[0], (unsigned long long)answer[1],
           (unsigned long long)r.head[DMA_TALLY]);
}

static void transmit(void) {
    struct ring r = {.device = 1};
    told("new", dma_tx_new(RING(&r), 4, LEN));
    told("prefill", dma_tx_prefill(RING(&r), r.buffer, LEN, (const uint8_t *)"abcd", 4, ANSWER));
    told("prepare", dma_tx_prepare(RING(&r), LEN));
    told("available", dma_tx_available_bytes(RING(&r), LEN, ANSWER));
    printf("prefill 4: cursor (%llu,%llu), available %llu\n", (unsigned long long)r.head[DMA_RECORD],
           (unsigned long long)r.head[DMA_OFFSET], (unsigned long long)answer[0]);
    told("push", dma_tx_push(RING(&r), r.buffer, LEN, (const uint8_t *)"efghi", 5, ANSWER));
    printf("push 5: accepted %llu, cursor (%llu,%llu)\n", (unsigned long long)answer[0], (unsigned long long)r.head[DMA_RECORD],
           (unsigned long long)r.head[DMA_OFFSET]);
    uint8_t out[LEN];
    printf("sent:");
    while (dma_tx_step(RING(&r), r.buffer, LEN, &r.device, 1, out, LEN, ANSWER) == DMA_DONE) part(out, answer[0]);
    printf("\n");
    told("advance 15", dma_tx_advance(RING(&r), LEN, 15, ANSWER));
}

int main(void) {
    receive();
    transmit();
    told("alignment", dma_ensure_buffer_compatible(0x3c000004, 64, DMA_IN, 0, 1 << 20, 0x3c000000, 0x3e000000, 4, 16));
    told("cut", dma_head_middle_tail(13, 100, DMA_S2, ANSWER));
    printf("S2, address 13, length 100: %llu %llu %llu\n", (unsigned long long)answer[0], (unsigned long long)answer[1],
           (unsigned long long)answer[2]);
    struct ring list = {0};
    told("pieces", dma_build_descriptor_list_for_psram(list.starts, DMA_LIMIT, list.cells, DMA_CELLS, 3, 0, 8170, DMA_ORDINARY, 32, ANSWER));
    printf("8170 bytes in %llu pieces: %u %u %u\n", (unsigned long long)answer[1], list.cells[0], list.cells[1], list.cells[2]);
    return 0;
}
