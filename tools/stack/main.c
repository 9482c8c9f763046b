/* How deep the calls go. Each runs on a painted stack of its own; the deepest word that lost its paint tells how much it took, its
 * return address and the arguments passed on the stack included. x86-64 alone. Prints rows of a table: call, bytes. */
#include <stdio.h>
#include <string.h>

#include "ciramohir.h"

#define RECORDS 64
#define BYTES 64000
#define ROOM 65536
#define PAINT 0xA5

static unsigned char room[ROOM] __attribute__((aligned(64)));

static size_t depth(void (*call)(void)) {
    memset(room, PAINT, ROOM);
    void *top = room + ROOM;
    __asm__ volatile("movq %%rsp, %%rbx\n\tmovq %0, %%rsp\n\tcall *%1\n\tmovq %%rbx, %%rsp"
                     :
                     : "r"(top), "r"(call)
                     : "rax", "rbx", "rcx", "rdx", "rsi", "rdi", "r8", "r9", "r10", "r11", "xmm0", "xmm1", "xmm2", "xmm3", "xmm4",
                       "xmm5", "xmm6", "xmm7", "xmm8", "xmm9", "xmm10", "xmm11", "xmm12", "xmm13", "xmm14", "xmm15", "memory", "cc");
    size_t left = 0;
    while (left < ROOM && room[left] == PAINT) left++;
    return ROOM - left;
}

static uint64_t head[DMA_HEAD_WORDS], answer[DMA_ANSWER_WORDS], device;
static uint32_t starts[DMA_LIMIT];
static uint16_t cells[DMA_CELLS];
static uint8_t buffer[BYTES], lent[BYTES];
static size_t request;
static volatile uint32_t number;

#define RING head, DMA_HEAD_WORDS, starts, DMA_LIMIT, cells, DMA_CELLS
#define ANSWER answer, DMA_ANSWER_WORDS

static void rx_new(void) { number = dma_rx_new(RING, RECORDS, BYTES); }
static void rx_prepare(void) { number = dma_rx_prepare(RING, BYTES); }
static void rx_available(void) { number = dma_rx_available_bytes(RING, BYTES, ANSWER); }
static void rx_peek(void) { number = dma_rx_peek(RING, BYTES, ANSWER); }
static void rx_peek_until_eof(void) { number = dma_rx_peek_until_eof(RING, BYTES, ANSWER); }
static void rx_consume(void) { number = dma_rx_consume(RING, BYTES, request, ANSWER); }
static void rx_pop(void) { number = dma_rx_pop(RING, buffer, BYTES, lent, request, ANSWER); }
static void tx_new(void) { number = dma_tx_new(RING, RECORDS, BYTES); }
static void tx_prefill(void) { number = dma_tx_prefill(RING, buffer, BYTES, lent, request, ANSWER); }
static void tx_offer_prefill(void) { number = dma_tx_offer_prefill(RING, BYTES, ANSWER); }
static void tx_commit_prefill(void) { number = dma_tx_commit_prefill(RING, BYTES, 0, ANSWER); }
static void tx_prepare(void) { number = dma_tx_prepare(RING, BYTES); }
static void tx_available(void) { number = dma_tx_available_bytes(RING, BYTES, ANSWER); }
static void tx_push(void) { number = dma_tx_push(RING, buffer, BYTES, lent, request, ANSWER); }
static void tx_offer(void) { number = dma_tx_offer(RING, BYTES, ANSWER); }
static void tx_commit(void) { number = dma_tx_commit(RING, BYTES, request, ANSWER); }
static void tx_advance(void) { number = dma_tx_advance(RING, BYTES, request, ANSWER); }
static void rx_step(void) { number = dma_rx_step(RING, buffer, BYTES, &device, 1, lent, 1000, 1, ANSWER); }
static void tx_step(void) { number = dma_tx_step(RING, buffer, BYTES, &device, 1, lent, 1000, ANSWER); }
static void aligned(void) { number = dma_ensure_buffer_compatible(64, 64, DMA_IN, 0, 4096, 8192, 16384, 4, 16); }
static void cut(void) { number = dma_head_middle_tail(13, 100, DMA_S2, ANSWER); }
static void build(void) {
    number = dma_build_descriptor_list_for_psram(starts, DMA_LIMIT, cells, DMA_CELLS, RECORDS, 13, 200000, DMA_S2, 48, ANSWER);
}
static void piece(void) { number = dma_piece(RECORDS, 13, 200000, DMA_S2, 48, 3, ANSWER); }

/* The ring for a call: new, then every record with the CPU and full. */
static void ready(int transmit) {
    if (transmit) dma_tx_new(RING, RECORDS, BYTES);
    else dma_rx_new(RING, RECORDS, BYTES);
    device = 1;
    for (size_t i = 0; i < RECORDS; i++) {
        cells[DMA_LENGTH + i] = cells[DMA_SIZE + i];
        cells[DMA_OWNER + i] = 0;
        cells[DMA_EOF + i] = 0;
        cells[DMA_NEXT + i] = 0;
    }
}

#ifdef BY_VALUE
struct ring {
    uint32_t starts[DMA_LIMIT];
    uint16_t cells[DMA_CELLS];
    size_t count, record, offset;
    uint32_t tally;
    size_t prefilled;
};
struct answered {
    struct ring ring;
    size_t bytes;
};
size_t value_rx_available(struct ring ring, size_t length);
struct answered value_rx_consume(struct ring ring, size_t length, size_t request);
struct answered value_rx_pop(struct ring ring, const uint8_t *buffer, size_t length, uint8_t *destination, size_t request);
struct answered value_tx_push(struct ring ring, uint8_t *buffer, size_t length, const uint8_t *data, size_t request);
struct answered value_tx_advance(struct ring ring, size_t length, size_t request);

static struct ring whole;
static struct answered after;
static void value_available(void) { request = value_rx_available(whole, BYTES); }
static void value_consume(void) { after = value_rx_consume(whole, BYTES, request); }
static void value_pop(void) { after = value_rx_pop(whole, buffer, BYTES, lent, request); }
static void value_push(void) { after = value_tx_push(whole, buffer, BYTES, lent, request); }
static void value_advance(void) { after = value_tx_advance(whole, BYTES, request); }
#endif

static const size_t requests[] = {0, 7, 256, 60000};

/* The most over the requests, each on a ring made ready again, and once on a ring that is refused. */
static size_t most(int transmit, void (*call)(void)) {
    size_t deepest = 0;
    for (size_t i = 0; i <= sizeof requests / sizeof *requests; i++) {
        ready(transmit);
        if (i < sizeof requests / sizeof *requests) request = requests[i];
        else cells[DMA_OWNER] = 2;
#ifdef BY_VALUE
        memcpy(whole.starts, starts, sizeof starts);
        memcpy(whole.cells, cells, sizeof cells);
        whole.count = RECORDS;
#endif
        size_t this = depth(call);
        if (deepest < this) deepest = this;
    }
    return deepest;
}

static void row(const char *name, int transmit, void (*call)(void)) { printf("| %s | %zu |\n", name, most(transmit, call)); }

int main(void) {
    row("`dma_rx_new`", 0, rx_new);
    row("`dma_rx_prepare`", 0, rx_prepare);
    row("`dma_rx_available_bytes`", 0, rx_available);
    row("`dma_rx_peek`", 0, rx_peek);
    row("`dma_rx_peek_until_eof`", 0, rx_peek_until_eof);
    row("`dma_rx_consume`", 0, rx_consume);
    row("`dma_rx_pop`", 0, rx_pop);
    row("`dma_tx_new`", 1, tx_new);
    row("`dma_tx_prefill`", 1, tx_prefill);
    row("`dma_tx_offer_prefill`", 1, tx_offer_prefill);
    row("`dma_tx_commit_prefill`", 1, tx_commit_prefill);
    row("`dma_tx_prepare`", 1, tx_prepare);
    row("`dma_tx_available_bytes`", 1, tx_available);
    row("`dma_tx_push`", 1, tx_push);
    row("`dma_tx_offer`", 1, tx_offer);
    row("`dma_tx_commit`", 1, tx_commit);
    row("`dma_tx_advance`", 1, tx_advance);
    row("`dma_rx_step`", 0, rx_step);
    row("`dma_tx_step`", 1, tx_step);
    row("`dma_ensure_buffer_compatible`", 0, aligned);
    row("`dma_head_middle_tail`", 0, cut);
    row("`dma_build_descriptor_list_for_psram`", 0, build);
    row("`dma_piece`", 0, piece);
#ifdef BY_VALUE
    row("available_bytes by value, receive", 0, value_available);
    row("consume by value", 0, value_consume);
    row("pop by value", 0, value_pop);
    row("push by value", 1, value_push);
    row("advance by value", 1, value_advance);
#endif
    printf("\nA ring's words: head %zu bytes, starts %zu, cells %zu, together %zu; an answer %zu.\n", sizeof head, sizeof starts,
           sizeof cells, sizeof head + sizeof starts + sizeof cells, sizeof answer);
    return number == UINT32_MAX;
}
