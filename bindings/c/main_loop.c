/* The main loop of ../rust/examples/main_loop.rs in C: a transfer is driven one access a turn, against a toy block of registers. Prints the same. */
#include "celadonsaw.h"
#include <stdio.h>

enum { TAR = 0x04, DATA_CMD = 0x10, INTR_MASK = 0x30, RAW_INTR_STAT = 0x34, CLR_STOP_DET = 0x60, RXFLR = 0x78, TX_ABRT_SOURCE = 0x80 };
enum { TX_EMPTY = 1 << 4, READ = 1 << 8, STOP = 1 << 9, STOP_DET = 1 << 9 };

/* A controller with a memory of 256 bytes behind it at 0x50. The first byte written sets where the memory is read or written.
 * Each look at RXFLR finds two more received bytes, so that waits occur. */
static struct {
    uint8_t memory[256];
    int place; /* -1: not set */
    uint8_t received[256];
    size_t first, last, arrived;
    uint32_t target, mask;
    bool stopped;
} block;

static uint32_t read_register(uint8_t offset) {
    switch (offset) {
    case DATA_CMD:
        block.arrived--;
        return block.received[block.first++];
    case RXFLR:
        block.arrived += 2;
        if (block.arrived > block.last - block.first)
            block.arrived = block.last - block.first;
        return (uint32_t)block.arrived;
    case RAW_INTR_STAT:
        return TX_EMPTY | (block.stopped ? STOP_DET : 0);
    case CLR_STOP_DET:
        block.stopped = false;
        return 0;
    case INTR_MASK:
        return block.mask;
    case TX_ABRT_SOURCE:
        return block.target != 0x50;
    default:
        return 0;
    }
}

static void command(uint32_t word) {
    if (block.target == 0x50) {
        if (word & READ)
            block.received[block.last++] = block.memory[block.place++ & 0xFF];
        else if (block.place < 0)
            block.place = (uint8_t)word;
        else
            block.memory[block.place++ & 0xFF] = (uint8_t)word;
    }
    if (word & STOP) {
        block.stopped = true;
        block.place = -1;
    }
}

static void write_register(uint8_t offset, uint32_t word) {
    switch (offset) {
    case TAR:
        block.target = word;
        break;
    case INTR_MASK:
        block.mask = word;
        break;
    case DATA_CMD:
        command(word);
        break;
    }
}

/* Performs an access and tells what it read. */
static uint32_t perform(celadonsaw_access access) {
    uint32_t reading = 0;
    if (access.kind == 1) {
        reading = read_register(access.reg);
        printf("read  %02X %08X\n", access.reg, reading);
    } else if (access.kind == 2) {
        write_register(access.reg, access.value);
        printf("write %02X %08X\n", access.reg, access.value);
    } else {
        printf("pending\n");
    }
    return reading;
}

/* The main loop up to a transfer's end. What else the firmware does is counted only. */
static void main_loop(const char *name, uint8_t form, uint16_t address, const uint8_t *kinds, const uint16_t *lengths, size_t count,
    const uint8_t *write, size_t write_len, uint8_t *read, size_t read_len) {
    int other_work = 0;
    printf("-- %s\n", name);
    celadonsaw_transfer transfer;
    celadonsaw_start(&transfer, form, address, kinds, count, lengths, count, write_len, read_len);
    celadonsaw_access access = celadonsaw_next_access(&transfer, write, write_len);
    while (access.kind != 0) {
        uint32_t reading = perform(access);
        access = celadonsaw_step(&transfer, reading, kinds, count, lengths, count, write, write_len, read, read_len);
        other_work++;
    }
    if (access.number == 0)
        printf("accepted\n");
    else
        printf("refused (%u, %u)\n", access.number, access.value);
    printf("turns of other work: %d\n", other_work);
}

int main(void) {
    uint8_t bytes[5] = {0};
    block.place = -1;
    for (int i = 0; i < 256; i++)
        block.memory[i] = (uint8_t)i;
    main_loop("blocking write of 2 bytes to 0x20", CELADONSAW_BLOCKING_WRITE, 0x50, (uint8_t[]){1}, (uint16_t[]){3}, 1,
        (uint8_t[]){0x20, 0xAA, 0xBB}, 3, bytes, 0);
    main_loop("async read of 5 bytes from 0x1E", CELADONSAW_WRITE_READ_ASYNC, 0x50, (uint8_t[]){1, 0}, (uint16_t[]){1, 5}, 2,
        (uint8_t[]){0x1E}, 1, bytes, 5);
    printf("[%02X, %02X, %02X, %02X, %02X]\n", bytes[0], bytes[1], bytes[2], bytes[3], bytes[4]);
    main_loop("nobody at 0x51", CELADONSAW_BLOCKING_READ, 0x51, (uint8_t[]){0}, (uint16_t[]){5}, 1, bytes, 0, bytes, 5);
    return 0;
}
