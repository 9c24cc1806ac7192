/* Every function and every field of celadonsaw.h, against values that are written down here. Coded calls
 * are in coded.c, the reasons of aborts and their causes in aborts.c.
 *
 * The proofs hold the functions to their contracts by the names of parameters and fields, so two that have changed
 * places are proved too. A caller in C goes by places, and so does this program: neighbours have values that tell them
 * apart.
 *
 * The values are not the library's own. "line N" is the call at that line of crates/replay/stdin, with the answer of
 * the original Rust in stdout (for bit 3 of a master's abort word it is 23); "manual" is an example of docs/MANUAL.md,
 * section 7, or of a rate section 11. Two things are added from its section 1: buffers start as UNREAD, not as zeros,
 * and bytes not read stay so; and readings follow that are left over.
 * The slave's state is in no answer: the kept byte is the one that later calls at those lines show, address and general
 * call are what the last reset was given.
 *
 * Prints one line for each expectation that fails. Status 1 if any did, else 0. */
#include "expect.h"

#define STEPS(...) steps(false, __VA_ARGS__)

static celadonsaw_slave slave(bool has_pending, uint8_t pending_byte, uint16_t address, bool general_call) {
    celadonsaw_slave state = {
        .has_pending = has_pending, .pending_byte = pending_byte, .address = address, .general_call = general_call};
    return state;
}

static void expect_slave(celadonsaw_slave_report left, celadonsaw_slave state, uint8_t number, uint32_t detail,
    size_t entries, size_t used, const uint32_t *words, size_t count, const uint8_t *bytes, size_t bytes_len) {
    expect("has_pending", left.state.has_pending, state.has_pending);
    expect("pending_byte", left.state.pending_byte, state.pending_byte);
    expect("address", left.state.address, state.address);
    expect("general_call", left.state.general_call, state.general_call);
    expect_report(left.report, number, detail, entries, used, words, count, bytes, bytes_len);
}

/* A call of the slave; then its state, and the same. */
#define SLAVE(call_name, call, ...) (begin(call_name), expect_slave(call, __VA_ARGS__))

static void clock_calls(void) {
    CALL("set_config, line 93", celadonsaw_set_config(100000, 125000000, READINGS(0xFFFFFFFF), LOG), 0, 0, 7, 1,
        LOGGED(W(0x6C, 0), W(0x1C, 0x1F4), W(0x20, 0x2EE), W(0xA0, 0x2E), R(0x7C, 0xFFFFFFFF), W(0x7C, 0xFFFF0026),
            W(0x6C, 1)), NO_BYTES);
    CALL("set_config, line 58", celadonsaw_set_config(1000001, 125000000, READINGS(1), LOG), 1, 0, 0, 0,
        NOTHING_LOGGED, NO_BYTES);
    CALL("set_config, line 76", celadonsaw_set_config(100000, 0x55555556, READINGS(1), LOG), 3, 0, 0, 0,
        NOTHING_LOGGED, NO_BYTES);
    CALL("set_config, manual", celadonsaw_set_config(1000000, 32000000, READINGS(1), LOG), 5, 0, 1, 0,
        LOGGED(W(0x6C, 0)), NO_BYTES);
}

static void expect_rate(const char *call, celadonsaw_rate rate, uint8_t number, uint32_t hz, uint32_t remainder) {
    begin(call);
    expect("number", rate.number, number);
    expect("hz", rate.hz, hz);
    expect("remainder", rate.remainder, remainder);
}

static void rate_calls(void) {
    expect_rate("bus_rate, manual (p)", celadonsaw_bus_rate(400000, 125000000), 0, 399361, 7);
    expect_rate("bus_rate, manual (q)", celadonsaw_bus_rate(1000000, 125000000), 0, 1000000, 0);
    expect_rate("bus_rate, manual (q), fast", celadonsaw_bus_rate(1000000, 32499999), 0, 1015624, 31);
    expect_rate("bus_rate, manual (q), refused", celadonsaw_bus_rate(1000000, 32000000), 5, 0, 0);
    expect_rate("bus_rate, manual (r)", celadonsaw_bus_rate(1145, 125000000), 0, 1145, 350);
    expect_rate("bus_rate, manual (r), refused", celadonsaw_bus_rate(1144, 125000000), 4, 0, 0);
    expect_rate("bus_rate, manual (r), slowest", celadonsaw_bus_rate(1, 109226), 0, 1, 0);
    expect_rate("bus_rate, manual (s), 1", celadonsaw_bus_rate(1000001, 125000000), 1, 0, 0);
    expect_rate("bus_rate, manual (s), 2", celadonsaw_bus_rate(0, 125000000), 2, 0, 0);
    expect_rate("bus_rate, manual (s), 3", celadonsaw_bus_rate(100000, 0x55555556), 3, 0, 0);
}

/* Logs that a whole call and its steps share. */
#define LOG_OF_LINE_4105 \
    LOGGED(SETUP(0x42), R(0x74, 0), W(0x10, 0x500), R(0x78, 0x10), R(0x10, 0xA1), R(0x74, 0x12))
#define LOG_OF_A_REFUSED_WRITE \
    LOGGED(SETUP(0x50), W(0x10, 0x25A), R(0x34, 0x10), R(0x80, 8), R(0x54, 0), R(0x34, 0x200), R(0x60, 0))
#define LOG_OF_LINE_1155 \
    LOGGED(SETUP(0x42), W(0x10, 0x11), R(0x34, 0x210), R(0x80, 0), R(0x74, 0), W(0x10, 0x500), R(0x78, 0x10), \
        R(0x10, 0xA1), R(0x74, 0), W(0x10, 0x300), R(0x78, 0x10), R(0x10, 0xA2))
#define LOG_OF_LINE_5013 \
    LOGGED(SETUP(0x42), W(0x10, 0x11), R(0x34, 0x210), R(0x80, 0), W(0x10, 0x12), R(0x34, 0x210), R(0x80, 0), \
        R(0x74, 0), W(0x10, 0x100), R(0x78, 0x10), R(0x10, 0xA1), W(0x10, 0x13), R(0x34, 0x210), R(0x80, 0), \
        R(0x74, 0), W(0x10, 0x100), R(0x78, 0x10), R(0x10, 0xA2), R(0x74, 0), W(0x10, 0x100), R(0x78, 0x10), \
        R(0x10, 0xA3), R(0x74, 0), W(0x10, 0x300), R(0x78, 0x10), R(0x10, 0xA4))
#define LOG_OF_AN_ASYNC_READ \
    LOGGED(SETUP(0x50), R(0x74, 0), W(0x10, 0x500), W(0x10, 0x300), R(0x78, 1), R(0x80, 0), W(0x38, 1), R(0x30, 0), \
        W(0x30, 0x44), PENDING, R(0x78, 2), R(0x80, 0), R(0x10, 0xA1), R(0x10, 0xA2), R(0x80, 0), R(0x34, 0x200), \
        R(0x60, 0))
#define LOG_OF_LINE_3794 \
    LOGGED(SETUP(0x42), R(0x74, 0), W(0x10, 0x11), W(0x10, 0x212), R(0x80, 0x1008), R(0x54, 0), R(0x60, 0))
#define LOG_OF_LINE_2458 \
    LOGGED(SETUP(0x42), R(0x74, 0), W(0x10, 0x11), R(0x74, 0), W(0x10, 0x500), W(0x10, 0x300), R(0x78, 0x10), \
        R(0x80, 0), R(0x10, 0xA1), R(0x10, 0xA2), R(0x80, 0), R(0x34, 0x210), R(0x60, 0))
#define LOG_OF_LINE_5145 \
    LOGGED(SETUP(0x42), R(0x74, 0), W(0x10, 0x11), W(0x10, 0x12), R(0x74, 0), W(0x10, 0x100), R(0x78, 0x10), \
        R(0x80, 0), R(0x10, 0xA1), R(0x74, 0), W(0x10, 0x13), R(0x74, 0), W(0x10, 0x100), W(0x10, 0x100), \
        W(0x10, 0x300), R(0x78, 0x10), R(0x80, 0), R(0x10, 0xA2), R(0x10, 0xA3), R(0x10, 0xA4), R(0x80, 0), \
        R(0x34, 0x210), R(0x60, 0))

static void blocking_calls(void) {
    CALL("blocking_read, line 4105", celadonsaw_blocking_read(0x42, buffer, 20, READINGS(0, 0x10, 0xA1, 0x12), LOG),
        12, 18, 8, 4, LOG_OF_LINE_4105, BYTES(0xA1));
    CALL("blocking_read, line 2847", celadonsaw_blocking_read(0xFFFF, buffer, 1, READINGS(0), LOG),
        6, 0xFFFF, 0, 0, NOTHING_LOGGED, NO_BYTES);
    CALL("blocking_write, manual", celadonsaw_blocking_write(0x50, BYTES(0x5A), READINGS(0x10, 8, 0, 0x200, 0), LOG),
        23, 8, 9, 5, LOG_OF_A_REFUSED_WRITE, NO_BYTES);
    /* A log of 5 words has room for 2 entries. */
    CALL("blocking_write, log full", celadonsaw_blocking_write(0x42, BYTES(0x11), READINGS(0x210), log_words, 5),
        19, 0, 2, 0, LOGGED(W(0x6C, 0), W(0x04, 0x42)), NO_BYTES);
    CALL("blocking_write, line 624, readings used up",
        celadonsaw_blocking_write(0x42, BYTES(0x11), (const uint32_t[]){0x210, 0}, 2, LOG), 18, 0, 6, 2,
        LOGGED(SETUP(0x42), W(0x10, 0x211), R(0x34, 0x210), R(0x80, 0)), NO_BYTES);
    CALL("blocking_write_read, line 1155",
        celadonsaw_blocking_write_read(0x42, BYTES(0x11), buffer, 2,
            READINGS(0x210, 0, 0, 0x10, 0xA1, 0, 0x10, 0xA2), LOG),
        0, 0, 14, 8, LOG_OF_LINE_1155, BYTES(0xA1, 0xA2));
    CALL("transaction, line 5013",
        celadonsaw_transaction(0x42, BYTES(1, 0, 1, 0), LENGTHS(2, 1, 1, 3), BYTES(0x11, 0x12, 0x13), buffer, 4,
            READINGS(0x210, 0, 0x210, 0, 0, 0x10, 0xA1, 0x210, 0, 0, 0x10, 0xA2, 0, 0x10, 0xA3, 0, 0x10, 0xA4), LOG),
        0, 0, 28, 18, LOG_OF_LINE_5013, BYTES(0xA1, 0xA2, 0xA3, 0xA4));
    /* Section 3: lengths that do not add up to the buffers. */
    CALL("transaction, lengths of other buffers",
        celadonsaw_transaction(0x42, BYTES(1, 0), LENGTHS(2, 1), BYTES(0x11), buffer, 2, READINGS(0x210), LOG),
        20, 0, 0, 0, NOTHING_LOGGED, NO_BYTES);
}

static void async_calls(void) {
    CALL("read_async, manual",
        celadonsaw_read_async(0x50, buffer, 2, READINGS(0, 1, 0, 0, 2, 0, 0xA1, 0xA2, 0, 0x200, 0), LOG),
        0, 0, 19, 11, LOG_OF_AN_ASYNC_READ, BYTES(0xA1, 0xA2));
    CALL("write_async, line 3794", celadonsaw_write_async(0x42, BYTES(0x11, 0x12), READINGS(0, 0x1008, 0, 0), LOG),
        23, 0x1008, 9, 4, LOG_OF_LINE_3794, NO_BYTES);
    CALL("write_read_async, line 2458",
        celadonsaw_write_read_async(0x42, BYTES(0x11), buffer, 2,
            READINGS(0, 0, 0x10, 0, 0xA1, 0xA2, 0, 0x210, 0), LOG),
        0, 0, 15, 9, LOG_OF_LINE_2458, BYTES(0xA1, 0xA2));
    CALL("transaction_async, line 5145",
        celadonsaw_transaction_async(0x42, BYTES(1, 0, 1, 0), LENGTHS(2, 1, 1, 3), BYTES(0x11, 0x12, 0x13), buffer, 4,
            READINGS(0, 0, 0x10, 0, 0xA1, 0, 0, 0x10, 0, 0xA2, 0xA3, 0xA4, 0, 0x210, 0), LOG),
        0, 0, 25, 15, LOG_OF_LINE_5145, BYTES(0xA1, 0xA2, 0xA3, 0xA4));
    CALL("transaction_async without operations, manual",
        celadonsaw_transaction_async(0x100, NO_BYTES, NO_LENGTHS, NO_BYTES, buffer, 0, READINGS(0), LOG),
        0, 0, 0, 0, NOTHING_LOGGED, NO_BYTES);
}

/* The state goes from call to call as written down, so that each call is held to its own. */
static void slave_calls(void) {
    SLAVE("slave_reset, line 13493",
        celadonsaw_slave_reset(slave(false, 0, 0, false), 0x55, true, READINGS(0x65, 0), LOG),
        slave(false, 0, 0x55, true), 0, 0, 11, 2,
        LOGGED(BLOCK_RESET, W(0x6C, 0), W(0x08, 0x55), R(0x00, 0x65), W(0x00, 0x324), W(0x98, 1), W(0x3C, 0),
            W(0x38, 0), R(0x40, 0), W(0x6C, 1), W(0x30, 0)), NO_BYTES);
    SLAVE("slave_listen, line 14156",
        celadonsaw_slave_listen(slave(false, 0, 0x55, true), buffer, 4,
            READINGS(0x200, 2, 8, 0x850, 8, 0x851, 0), LOG),
        slave(true, 0x51, 0x55, true), 0, 0x40001, 9, 7,
        LOGGED(W(0x38, 0), R(0x34, 0x200), R(0x78, 2), R(0x70, 8), R(0x10, 0x850), R(0x70, 8), R(0x10, 0x851),
            W(0x38, 0xB), R(0x60, 0)), BYTES(0x50));
    SLAVE("slave_listen, line 14165",
        celadonsaw_slave_listen(slave(true, 0x51, 0x55, true), buffer, 0, READINGS(0x200), LOG),
        slave(true, 0x51, 0x55, true), 17, 0, 0, 0, NOTHING_LOGGED, NO_BYTES);
    SLAVE("slave_reset, line 14167",
        celadonsaw_slave_reset(slave(true, 0x51, 0x55, true), 0x20, false, READINGS(0x65, 0), LOG),
        slave(true, 0x51, 0x20, false), 0, 0, 11, 2,
        LOGGED(BLOCK_RESET, W(0x6C, 0), W(0x08, 0x20), R(0x00, 0x65), W(0x00, 0x3A4), W(0x98, 0), W(0x3C, 0),
            W(0x38, 0), R(0x40, 0), W(0x6C, 1), W(0x30, 0)), NO_BYTES);
    SLAVE("slave_respond_to_read, line 14178",
        celadonsaw_slave_respond_to_read(slave(true, 0x51, 0x20, false), BYTES(0x11), READINGS(0, 0, 0x80, 0), LOG),
        slave(true, 0x51, 0x20, false), 0, 0x10000, 7, 4,
        LOGGED(R(0x34, 0), R(0x50, 0), W(0x10, 0x11), W(0x30, 0xD0), PENDING, R(0x34, 0x80), R(0x58, 0)), NO_BYTES);
    /* The kept byte goes into the buffer; then none is kept, and its place is 0. */
    SLAVE("slave_listen, line 14184",
        celadonsaw_slave_listen(slave(true, 0x51, 0x20, false), buffer, 4, READINGS(0x200, 1, 8, 0x52, 0, 0), LOG),
        slave(false, 0, 0x20, false), 0, 0x40002, 8, 6,
        LOGGED(W(0x38, 0), R(0x34, 0x200), R(0x78, 1), R(0x70, 8), R(0x10, 0x52), R(0x70, 0), W(0x38, 0xB), R(0x60, 0)),
        BYTES(0x51, 0x52));
    /* Where none is kept, the byte handed in does not count either. */
    SLAVE("slave_listen, line 13971",
        celadonsaw_slave_listen(slave(false, 0x33, 0x155, true), buffer, 1, READINGS(0xA00, 2, 8, 0x41), LOG),
        slave(false, 0, 0x155, true), 15, 1, 6, 4,
        LOGGED(W(0x38, 0), R(0x34, 0xA00), R(0x78, 2), R(0x70, 8), R(0x10, 0x41), W(0x38, 0xB)), BYTES(0x41));
    SLAVE("slave_reset, line 13525",
        celadonsaw_slave_reset(slave(true, 0x77, 0x3FF, false), 0, true, READINGS(0x65, 0), LOG),
        slave(true, 0x77, 0x3FF, false), 16, 0, 0, 0, NOTHING_LOGGED, NO_BYTES);
    SLAVE("slave_respond_to_read, manual",
        celadonsaw_slave_respond_to_read(slave(false, 0, 0x28, true), BYTES(0x11, 0x22, 0x33),
            READINGS(0x20, 0, 0, 0, 0x40, 0x01002000, 0, 0), LOG),
        slave(false, 0, 0x28, true), 0, 0x30002, 13, 8,
        LOGGED(R(0x34, 0x20), R(0x50, 0), W(0x10, 0x11), R(0x50, 0), W(0x10, 0x22), R(0x50, 0), W(0x10, 0x33),
            W(0x30, 0xD0), PENDING, R(0x34, 0x40), R(0x80, 0x01002000), R(0x54, 0), R(0x40, 0)), NO_BYTES);
    /* Bit 3 is no reason of the slave's own: 11, or leftover bytes where the word has a flush count. */
    SLAVE("slave_respond_to_read, line 28929",
        celadonsaw_slave_respond_to_read(slave(false, 0, 0x29, true), BYTES(0x11, 0x12), READINGS(0, 0, 0, 0x40, 8, 0),
            LOG),
        slave(false, 0, 0x29, true), 11, 8, 10, 6,
        LOGGED(R(0x34, 0), R(0x50, 0), W(0x10, 0x11), R(0x50, 0), W(0x10, 0x12), W(0x30, 0xD0), PENDING, R(0x34, 0x40),
            R(0x80, 8), R(0x54, 0)), NO_BYTES);
    SLAVE("slave_respond_to_read, line 29043",
        celadonsaw_slave_respond_to_read(slave(true, 0x44, 0x29, false), BYTES(0x11, 0x12),
            READINGS(0, 0, 0, 0x40, 0x800008, 0, 0), LOG),
        slave(true, 0x44, 0x29, false), 0, 0x30001, 11, 7,
        LOGGED(R(0x34, 0), R(0x50, 0), W(0x10, 0x11), R(0x50, 0), W(0x10, 0x12), W(0x30, 0xD0), PENDING, R(0x34, 0x40),
            R(0x80, 0x800008), R(0x54, 0), R(0x40, 0)), NO_BYTES);
    SLAVE("slave_respond_till_stop, line 15297",
        celadonsaw_slave_respond_till_stop(slave(true, 0x66, 0x2A, false), 0xEE,
            (const uint32_t[]){0x210, 0, 0}, 3, LOG),
        slave(true, 0x66, 0x2A, false), 18, 0, 5, 3,
        LOGGED(R(0x34, 0x210), R(0x50, 0), W(0x10, 0xEE), R(0x50, 0), W(0x10, 0xEE)), NO_BYTES);
    SLAVE("slave_respond_till_stop, manual",
        celadonsaw_slave_respond_till_stop(slave(false, 0, 0x2A, true), 0, READINGS(0x40, 1, 0), LOG),
        slave(false, 0, 0x2A, true), 9, 0, 3, 3, LOGGED(R(0x34, 0x40), R(0x80, 1), R(0x54, 0)), NO_BYTES);
    SLAVE("slave_respond_and_fill, manual",
        celadonsaw_slave_respond_and_fill(slave(true, 0x99, 0x2B, true), BYTES(0x77), 0xFF,
            (const uint32_t[]){0x20, 0, 0x30, 0x30, 0}, 5, LOG),
        slave(true, 0x99, 0x2B, true), 18, 0, 9, 5,
        LOGGED(R(0x34, 0x20), R(0x50, 0), W(0x10, 0x77), W(0x30, 0xD0), PENDING, R(0x34, 0x30), R(0x34, 0x30),
            R(0x50, 0), W(0x10, 0xFF)), NO_BYTES);
    SLAVE("slave_respond_and_fill, line 15140",
        celadonsaw_slave_respond_and_fill(slave(false, 0, 0x2C, false), BYTES(0x11, 0x12), 0xEE,
            READINGS(0, 0, 0, 0x40, 0x1800000, 0, 0), LOG),
        slave(false, 0, 0x2C, false), 0, 0x30003, 11, 7,
        LOGGED(R(0x34, 0), R(0x50, 0), W(0x10, 0x11), R(0x50, 0), W(0x10, 0x12), W(0x30, 0xD0), PENDING, R(0x34, 0x40),
            R(0x80, 0x1800000), R(0x54, 0), R(0x40, 0)), NO_BYTES);
}

/* All eight forms; the lengths of the buffers differ, so that each is held to its own. Then what is 20. */
static void step_calls(void) {
    STEPS("steps, line 4105", CELADONSAW_BLOCKING_READ, 0x42, BYTES(0), LENGTHS(20), NO_BYTES, 20,
        12, 18, LOG_OF_LINE_4105, BYTES(0xA1));
    STEPS("steps, refused write of the manual", CELADONSAW_BLOCKING_WRITE, 0x50, BYTES(1), LENGTHS(1), BYTES(0x5A), 0,
        23, 8, LOG_OF_A_REFUSED_WRITE, NO_BYTES);
    STEPS("steps, line 1155", CELADONSAW_BLOCKING_WRITE_READ, 0x42, BYTES(1, 0), LENGTHS(1, 2), BYTES(0x11), 2,
        0, 0, LOG_OF_LINE_1155, BYTES(0xA1, 0xA2));
    STEPS("steps, line 5013", CELADONSAW_TRANSACTION, 0x42, BYTES(1, 0, 1, 0), LENGTHS(2, 1, 1, 3),
        BYTES(0x11, 0x12, 0x13), 4, 0, 0, LOG_OF_LINE_5013, BYTES(0xA1, 0xA2, 0xA3, 0xA4));
    STEPS("steps, async read of the manual", CELADONSAW_READ_ASYNC, 0x50, BYTES(0), LENGTHS(2), NO_BYTES, 2,
        0, 0, LOG_OF_AN_ASYNC_READ, BYTES(0xA1, 0xA2));
    STEPS("steps, line 3794", CELADONSAW_WRITE_ASYNC, 0x42, BYTES(1), LENGTHS(2), BYTES(0x11, 0x12), 0,
        23, 0x1008, LOG_OF_LINE_3794, NO_BYTES);
    STEPS("steps, line 2458", CELADONSAW_WRITE_READ_ASYNC, 0x42, BYTES(1, 0), LENGTHS(1, 2), BYTES(0x11), 2,
        0, 0, LOG_OF_LINE_2458, BYTES(0xA1, 0xA2));
    STEPS("steps, line 5145", CELADONSAW_TRANSACTION_ASYNC, 0x42, BYTES(1, 0, 1, 0), LENGTHS(2, 1, 1, 3),
        BYTES(0x11, 0x12, 0x13), 4, 0, 0, LOG_OF_LINE_5145, BYTES(0xA1, 0xA2, 0xA3, 0xA4));
    STEPS("steps, line 2847", CELADONSAW_BLOCKING_READ, 0xFFFF, BYTES(0), LENGTHS(1), NO_BYTES, 1,
        6, 0xFFFF, NOTHING_LOGGED, NO_BYTES);
    STEPS("steps, lengths of other buffers", CELADONSAW_WRITE_READ_ASYNC, 0x42, BYTES(1, 0), LENGTHS(2, 1),
        BYTES(0x11), 2, 20, 0, NOTHING_LOGGED, NO_BYTES);
    STEPS("steps, a length without a kind", CELADONSAW_BLOCKING_READ, 0x42, BYTES(0), LENGTHS(2, 0), NO_BYTES, 2,
        20, 0, NOTHING_LOGGED, NO_BYTES);
    STEPS("steps, form 8", 8, 0x42, BYTES(0), LENGTHS(1), NO_BYTES, 1, 20, 0, NOTHING_LOGGED, NO_BYTES);
    STEPS("steps, form 255", 255, 0x42, BYTES(1, 0), LENGTHS(1, 1), BYTES(0x11), 1, 20, 0, NOTHING_LOGGED, NO_BYTES);
    for (uint8_t form = 0; form < 8; form++) {
        if (form % 4 < 2) {
            STEPS("steps, two reads", form, 0x42, BYTES(0, 0), LENGTHS(1, 1), NO_BYTES, 2,
                20, 0, NOTHING_LOGGED, NO_BYTES);
            STEPS("steps, no operations", form, 0x42, NO_BYTES, NO_LENGTHS, NO_BYTES, 0,
                20, 0, NOTHING_LOGGED, NO_BYTES);
        }
        if (form % 4 == 0 || form % 4 == 2)
            STEPS("steps, a write in a read's or a write-read's form", form, 0x42, BYTES(1), LENGTHS(1), BYTES(0x11), 0,
                20, 0, NOTHING_LOGGED, NO_BYTES);
        if (form % 4 == 1 || form % 4 == 2)
            STEPS("steps, a read in a write's or a write-read's form", form, 0x42, BYTES(0), LENGTHS(1), NO_BYTES, 1,
                20, 0, NOTHING_LOGGED, NO_BYTES);
        if (form % 4 == 2)
            STEPS("steps, a read before the write", form, 0x42, BYTES(0, 1), LENGTHS(1, 1), BYTES(0x11), 1,
                20, 0, NOTHING_LOGGED, NO_BYTES);
    }
}

int main(void) {
    clock_calls();
    rate_calls();
    blocking_calls();
    async_calls();
    slave_calls();
    step_calls();
    return failures != 0;
}
