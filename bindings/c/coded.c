/* The calls of celadonsaw.h with a packet error code, whole and by steps, as in calls.c: "line N" is the call at that
 * line of crates/replay/stdin, with the answer of the original Rust on the longer operations in stdout.
 *
 * Prints one line for each expectation that fails. Status 1 if any did, else 0. */
#include "expect.h"

#define STEPS(...) steps(true, __VA_ARGS__)

/* Logs that a whole call and its steps share. */
#define LOG_OF_LINE_15317 \
    LOGGED(SETUP(0x42), R(0x74, 0), W(0x10, 0x500), R(0x78, 0x10), R(0x10, 0xA1), R(0x74, 0), W(0x10, 0x300), \
        R(0x78, 0x10), R(0x10, 0x99))
#define LOG_OF_LINE_15968 \
    LOGGED(SETUP(0x42), W(0x10, 0x11), R(0x34, 0x210), R(0x80, 0), W(0x10, 0x295), R(0x34, 0x210), R(0x80, 0), \
        R(0x34, 0x210), R(0x60, 0))
#define LOG_OF_LINE_16415 \
    LOGGED(SETUP(0x42), W(0x10, 0x11), R(0x34, 0x210), R(0x80, 0), R(0x74, 0), W(0x10, 0x500), R(0x78, 0x10), \
        R(0x10, 0xA1), R(0x74, 0), W(0x10, 0x300), R(0x78, 0x10), R(0x10, 0x39))
#define LOG_OF_LINE_17453 \
    LOGGED(SETUP(0x42), W(0x10, 0x11), R(0x34, 0x210), R(0x80, 0), R(0x74, 0), W(0x10, 0x100), R(0x78, 0x10), \
        R(0x10, 0xA1), W(0x10, 0x12), R(0x34, 0x210), R(0x80, 0), W(0x10, 0x2D8), R(0x34, 0x210), R(0x80, 0), \
        R(0x34, 0x210), R(0x60, 0))
#define LOG_OF_LINE_18858 \
    LOGGED(SETUP(0x42), R(0x74, 0), W(0x10, 0x500), W(0x10, 0x300), R(0x78, 0x10), R(0x80, 0), R(0x10, 0xA1), \
        R(0x10, 0x99), R(0x80, 0), R(0x34, 0x210), R(0x60, 0))
#define LOG_OF_LINE_19221 \
    LOGGED(SETUP(0x42), R(0x74, 0), W(0x10, 0x11), W(0x10, 0x295), R(0x80, 0), R(0x34, 0x210), R(0x60, 0))
#define LOG_OF_LINE_19374 \
    LOGGED(SETUP(0x42), R(0x74, 0), W(0x10, 0x11), R(0x74, 0), W(0x10, 0x500), W(0x10, 0x300), R(0x78, 0x10), \
        R(0x80, 0), R(0x10, 0xA1), R(0x10, 0x39), R(0x80, 0), R(0x34, 0x210), R(0x60, 0))
#define LOG_OF_LINE_19842 \
    LOGGED(SETUP(0x42), R(0x74, 0), W(0x10, 0x11), R(0x74, 0), W(0x10, 0x100), R(0x78, 0x10), R(0x80, 0), \
        R(0x10, 0xA1), R(0x74, 0), W(0x10, 0x12), W(0x10, 0x2D8), R(0x80, 0), R(0x34, 0x210), R(0x60, 0))
#define LOG_OF_LINE_15308 \
    LOGGED(SETUP(0x42), R(0x74, 0), W(0x10, 0x500), R(0x78, 0x10), R(0x10, 0xA1), R(0x74, 0), W(0x10, 0x300), \
        R(0x78, 0x10), R(0x10, 0xA2))
#define LOG_OF_LINE_19196 \
    LOGGED(SETUP(0x42), R(0x74, 0), W(0x10, 0x500), W(0x10, 0x100), W(0x10, 0x300), R(0x78, 0x10), R(0x80, 0), \
        R(0x10, 0xA1), R(0x10, 0xA2), R(0x10, 0xA3), R(0x80, 0), R(0x34, 0x210), R(0x60, 0))
#define LOG_OF_LINE_19208 \
    LOGGED(SETUP(0x42))
#define LOG_OF_LINE_20371 \
    LOGGED(SETUP(0x50), R(0x74, 0x10), R(0x78, 1), R(0x80, 0), R(0x10, 0x5A), R(0x74, 0), W(0x10, 0xCE), \
        W(0x10, 0x236), R(0x80, 0), R(0x34, 0x200), R(0x60, 0))
#define LOG_OF_LINE_20394 \
    LOGGED(SETUP(0x50), W(0x10, 1), R(0x34, 0x210), R(0x80, 0), W(0x10, 0x21F), R(0x34, 0x210), R(0x80, 0), \
        R(0x34, 0x210), R(0x60, 0))
#define LOG_OF_LINE_21401 \
    LOGGED(SETUP(0x42), R(0x74, 0), W(0x10, 0x11))

static void blocking_calls(void) {
    CALL("blocking_read_pec, line 15317",
        celadonsaw_blocking_read_pec(0x42, buffer, 1, READINGS(0, 0x10, 0xA1, 0, 0x10, 0x99), LOG),
        0, 0, 11, 6, LOG_OF_LINE_15317, BYTES(0xA1));
    CALL("blocking_write_pec, line 15968",
        celadonsaw_blocking_write_pec(0x42, BYTES(0x11), READINGS(0x210, 0, 0x210, 0, 0x210, 0), LOG),
        0, 0, 11, 6, LOG_OF_LINE_15968, NO_BYTES);
    CALL("blocking_write_read_pec, line 16415",
        celadonsaw_blocking_write_read_pec(0x42, BYTES(0x11), buffer, 1,
            READINGS(0x210, 0, 0, 0x10, 0xA1, 0, 0x10, 0x39), LOG),
        0, 0, 14, 8, LOG_OF_LINE_16415, BYTES(0xA1));
    CALL("transaction_pec, line 17453",
        celadonsaw_transaction_pec(0x42, BYTES(1, 0, 1), LENGTHS(1, 1, 1), BYTES(0x11, 0x12), buffer, 1,
            READINGS(0x210, 0, 0, 0x10, 0xA1, 0x210, 0, 0x210, 0, 0x210, 0), LOG),
        0, 0, 18, 11, LOG_OF_LINE_17453, BYTES(0xA1));
    CALL("blocking_read_pec, line 15308",
        celadonsaw_blocking_read_pec(0x42, buffer, 1, READINGS(0, 0x10, 0xA1, 0, 0x10, 0xA2), LOG),
        22, 0, 11, 6, LOG_OF_LINE_15308, BYTES(0xA1));
    CALL("blocking_write_pec, line 20394",
        celadonsaw_blocking_write_pec(0x50, BYTES(1), READINGS(0x210, 0, 0x210, 0, 0x210, 0), LOG),
        0, 0, 11, 6, LOG_OF_LINE_20394, NO_BYTES);
    CALL("blocking_read_pec, line 20424",
        celadonsaw_blocking_read_pec(0xFFFF, buffer, 1, READINGS(0), LOG),
        6, 0xFFFF, 0, 0, NOTHING_LOGGED, NO_BYTES);
}

static void async_calls(void) {
    CALL("read_async_pec, line 18858",
        celadonsaw_read_async_pec(0x42, buffer, 1, READINGS(0, 0x10, 0, 0xA1, 0x99, 0, 0x210, 0), LOG),
        0, 0, 13, 8, LOG_OF_LINE_18858, BYTES(0xA1));
    CALL("write_async_pec, line 19221",
        celadonsaw_write_async_pec(0x42, BYTES(0x11), READINGS(0, 0, 0x210, 0), LOG),
        0, 0, 9, 4, LOG_OF_LINE_19221, NO_BYTES);
    CALL("write_read_async_pec, line 19374",
        celadonsaw_write_read_async_pec(0x42, BYTES(0x11), buffer, 1,
            READINGS(0, 0, 0x10, 0, 0xA1, 0x39, 0, 0x210, 0), LOG),
        0, 0, 15, 9, LOG_OF_LINE_19374, BYTES(0xA1));
    CALL("transaction_async_pec, line 19842",
        celadonsaw_transaction_async_pec(0x42, BYTES(1, 0, 1), LENGTHS(1, 1, 1), BYTES(0x11, 0x12), buffer, 1,
            READINGS(0, 0, 0x10, 0, 0xA1, 0, 0, 0x210, 0), LOG),
        0, 0, 16, 9, LOG_OF_LINE_19842, BYTES(0xA1));
    CALL("read_async_pec, line 19196",
        celadonsaw_read_async_pec(0x42, buffer, 2, READINGS(0, 0x10, 0, 0xA1, 0xA2, 0xA3, 0, 0x210, 0), LOG),
        22, 0, 15, 9, LOG_OF_LINE_19196, BYTES(0xA1, 0xA2));
    CALL("write_async_pec, line 19208",
        celadonsaw_write_async_pec(0x42, NO_BYTES, READINGS(0), LOG),
        8, 0, 3, 0, LOG_OF_LINE_19208, NO_BYTES);
    CALL("transaction_async_pec, line 20371",
        celadonsaw_transaction_async_pec(0x50, BYTES(0, 1), LENGTHS(1, 1), BYTES(0xCE), buffer, 1,
            READINGS(0x10, 1, 0, 0x5A, 0, 0, 0x200, 0), LOG),
        0, 0, 13, 8, LOG_OF_LINE_20371, BYTES(0x5A));
    CALL("transaction_async_pec, line 21401",
        celadonsaw_transaction_async_pec(0x42, BYTES(1, 1, 0), LENGTHS(1, 0, 1), BYTES(0x11), buffer, 1, READINGS(0),
            LOG),
        8, 0, 5, 1, LOG_OF_LINE_21401, NO_BYTES);
}

/* The same calls by steps, then what is refused with 20. */
static void step_calls(void) {
    STEPS("steps, line 15317", CELADONSAW_BLOCKING_READ, 0x42, BYTES(0), LENGTHS(1), NO_BYTES, 1, 0, 0,
        LOG_OF_LINE_15317, BYTES(0xA1));
    STEPS("steps, line 15968", CELADONSAW_BLOCKING_WRITE, 0x42, BYTES(1), LENGTHS(1), BYTES(0x11), 0, 0, 0,
        LOG_OF_LINE_15968, NO_BYTES);
    STEPS("steps, line 16415", CELADONSAW_BLOCKING_WRITE_READ, 0x42, BYTES(1, 0), LENGTHS(1, 1), BYTES(0x11), 1, 0,
        0, LOG_OF_LINE_16415, BYTES(0xA1));
    STEPS("steps, line 17453", CELADONSAW_TRANSACTION, 0x42, BYTES(1, 0, 1), LENGTHS(1, 1, 1), BYTES(0x11, 0x12), 1,
        0, 0, LOG_OF_LINE_17453, BYTES(0xA1));
    STEPS("steps, line 18858", CELADONSAW_READ_ASYNC, 0x42, BYTES(0), LENGTHS(1), NO_BYTES, 1, 0, 0,
        LOG_OF_LINE_18858, BYTES(0xA1));
    STEPS("steps, line 19221", CELADONSAW_WRITE_ASYNC, 0x42, BYTES(1), LENGTHS(1), BYTES(0x11), 0, 0, 0,
        LOG_OF_LINE_19221, NO_BYTES);
    STEPS("steps, line 19374", CELADONSAW_WRITE_READ_ASYNC, 0x42, BYTES(1, 0), LENGTHS(1, 1), BYTES(0x11), 1, 0, 0,
        LOG_OF_LINE_19374, BYTES(0xA1));
    STEPS("steps, line 19842", CELADONSAW_TRANSACTION_ASYNC, 0x42, BYTES(1, 0, 1), LENGTHS(1, 1, 1),
        BYTES(0x11, 0x12), 1, 0, 0, LOG_OF_LINE_19842, BYTES(0xA1));
    STEPS("steps, line 15308", CELADONSAW_BLOCKING_READ, 0x42, BYTES(0), LENGTHS(1), NO_BYTES, 1, 22, 0,
        LOG_OF_LINE_15308, BYTES(0xA1));
    STEPS("steps, line 19196", CELADONSAW_READ_ASYNC, 0x42, BYTES(0), LENGTHS(2), NO_BYTES, 2, 22, 0,
        LOG_OF_LINE_19196, BYTES(0xA1, 0xA2));
    STEPS("steps, line 19208", CELADONSAW_WRITE_ASYNC, 0x42, BYTES(1), LENGTHS(0), NO_BYTES, 0, 8, 0,
        LOG_OF_LINE_19208, NO_BYTES);
    STEPS("steps, line 20371", CELADONSAW_TRANSACTION_ASYNC, 0x50, BYTES(0, 1), LENGTHS(1, 1), BYTES(0xCE), 1, 0, 0,
        LOG_OF_LINE_20371, BYTES(0x5A));
    STEPS("steps, line 20394", CELADONSAW_BLOCKING_WRITE, 0x50, BYTES(1), LENGTHS(1), BYTES(1), 0, 0, 0,
        LOG_OF_LINE_20394, NO_BYTES);
    STEPS("steps, line 21401", CELADONSAW_TRANSACTION_ASYNC, 0x42, BYTES(1, 1, 0), LENGTHS(1, 0, 1), BYTES(0x11), 1,
        8, 0, LOG_OF_LINE_21401, NO_BYTES);
    STEPS("steps, line 20424", CELADONSAW_BLOCKING_READ, 0xFFFF, BYTES(0), LENGTHS(1), NO_BYTES, 1, 6, 0xFFFF,
        NOTHING_LOGGED, NO_BYTES);
    STEPS("steps, form 8", 8, 0x42, BYTES(0), LENGTHS(1), NO_BYTES, 1, 20, 0, NOTHING_LOGGED, NO_BYTES);
    STEPS("steps, lengths of other buffers", CELADONSAW_WRITE_READ_ASYNC, 0x42, BYTES(1, 0), LENGTHS(1, 3), BYTES(0x11),
        2, 20, 0, NOTHING_LOGGED, NO_BYTES);
}

/* The check value of CRC-8, whole and in two parts, and a message with its code. */
static void crc8_calls(void) {
    begin("crc8");
    expect("check value", celadonsaw_crc8(0, (const uint8_t *)"123456789", 9), 0xF4);
    expect("check value in parts", celadonsaw_crc8(celadonsaw_crc8(0, (const uint8_t *)"1234", 4),
        (const uint8_t *)"56789", 5), 0xF4);
    expect("residue", celadonsaw_crc8(0, BYTES(0xA0, 0x01, 0x1F)), 0);
    expect("no bytes", celadonsaw_crc8(0x5A, NO_BYTES), 0x5A);
    uint8_t long_message[200]; /* long enough for the lanes; by single bytes, and at once */
    uint8_t by_bytes = 0x33;
    for (size_t i = 0; i < sizeof long_message; i++) {
        long_message[i] = (uint8_t)(7 * i + 1);
        by_bytes = celadonsaw_crc8(by_bytes, &long_message[i], 1);
    }
    expect("long message", celadonsaw_crc8(0x33, long_message, sizeof long_message), by_bytes);
}

int main(void) {
    blocking_calls();
    async_calls();
    step_calls();
    crc8_calls();
    return failures != 0;
}
