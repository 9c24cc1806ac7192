/* The reasons of an abort and the causes in its word, whole and by steps, plain and with a packet error code, as in calls.c:
 * "line N" is the call at that line of crates/replay/stdin, with the answer in stdout. That is the original Rust's, but for bit
 * 3 of the master: there it is 23, as docs/DIFFERENCES.md says.
 *
 * Prints one line for each expectation that fails. Status 1 if any did, else 0. */
#include "expect.h"

/* The ends that aborts have: the word is read and cleared; a blocking write and an async transfer then wait for STOP. */
#define ABORT(word) R(0x80, word), R(0x54, 0)
#define BLOCKING_STOP R(0x34, 0x210), R(0x60, 0)
#define ASYNC_STOP R(0x80, 0), R(0x34, 0x210), R(0x60, 0)

/* Logs that a whole call and its steps share. */
#define LOG_OF_A_READ(word) LOGGED(SETUP(0x42), R(0x74, 0), W(0x10, 0x500), R(0x78, 0), ABORT(word))
#define LOG_OF_A_WRITE(word) LOGGED(SETUP(0x42), W(0x10, 0x11), R(0x34, 0x210), ABORT(word), BLOCKING_STOP)
#define LOG_OF_LINE_27423 \
    LOGGED(SETUP(0x42), R(0x74, 0), W(0x10, 0x500), W(0x10, 0x300), R(0x78, 0), ABORT(8), ASYNC_STOP)
#define LOG_OF_AN_ASYNC_WRITE(word) \
    LOGGED(SETUP(0x42), R(0x74, 0), W(0x10, 0x11), W(0x10, 0x212), ABORT(word), R(0x60, 0))
#define LOG_OF_LINE_27491 \
    LOGGED(SETUP(0x42), R(0x74, 0), W(0x10, 0x11), W(0x10, 0x12), R(0x74, 0), W(0x10, 0x500), W(0x10, 0x300), \
        R(0x78, 0), ABORT(8), ASYNC_STOP)
#define LOG_OF_LINE_27539 \
    LOGGED(SETUP(0x42), R(0x74, 0), W(0x10, 0x11), W(0x10, 0x12), R(0x74, 0), W(0x10, 0x100), W(0x10, 0x100), \
        R(0x78, 0), ABORT(8), ASYNC_STOP)
#define LOG_OF_LINE_28517 \
    LOGGED(SETUP(0x42), R(0x74, 0), W(0x10, 0x11), W(0x10, 0x12), W(0x10, 0x13), W(0x10, 0x14), W(0x10, 0x15), \
        W(0x10, 0x16), W(0x10, 0x17), W(0x10, 0x18), W(0x10, 0x19), W(0x10, 0x1A), W(0x10, 0x1B), W(0x10, 0x1C), \
        W(0x10, 0x1D), W(0x10, 0x1E), W(0x10, 0x1F), W(0x10, 0x20), ABORT(8), ABORT(1), R(0x34, 0), R(0x30, 0), \
        W(0x30, 0x240), PENDING, R(0x80, 0), R(0x34, 0), R(0x30, 0), W(0x30, 0x240), PENDING, R(0x80, 0), \
        R(0x34, 0x200), R(0x60, 0))
#define LOG_OF_LINE_27727 \
    LOGGED(SETUP(0x42), R(0x74, 0), W(0x10, 0x500), W(0x10, 0x100), W(0x10, 0x300), R(0x78, 0), ABORT(8), ASYNC_STOP)
#define LOG_OF_LINE_27767 \
    LOGGED(SETUP(0x42), R(0x74, 0), W(0x10, 0x11), W(0x10, 0x12), W(0x10, 0x29C), ABORT(8), R(0x60, 0))
#define LOG_OF_LINE_27795 \
    LOGGED(SETUP(0x42), R(0x74, 0), W(0x10, 0x11), W(0x10, 0x12), R(0x74, 0), W(0x10, 0x500), W(0x10, 0x100), \
        W(0x10, 0x300), R(0x78, 0), ABORT(8), ASYNC_STOP)
#define LOG_OF_LINE_28391 \
    LOGGED(SETUP(0x42), R(0x74, 0), W(0x10, 0x500), W(0x10, 0x300), R(0x78, 0x10), R(0x80, 0), R(0x10, 0xA1), \
        R(0x10, 0xA2), ABORT(8), R(0x60, 0))

#define TWO_BYTES BYTES(0x11, 0x12)
#define FOUR_BYTES BYTES(0x11, 0x12, 0x13, 0x14)
#define SEVENTEEN_BYTES \
    BYTES(0x11, 0x12, 0x13, 0x14, 0x15, 0x16, 0x17, 0x18, 0x19, 0x1A, 0x1B, 0x1C, 0x1D, 0x1E, 0x1F, 0x20, 0x21)
#define A_TRANSACTION BYTES(1, 0, 1), LENGTHS(2, 2, 2)

/* Bit 3 alone, in each form. */
static void plain_calls(void) {
    CALL("blocking_read, line 27287", celadonsaw_blocking_read(0x42, buffer, 2, READINGS(0, 0, 8, 0), LOG),
        23, 8, 8, 4, LOG_OF_A_READ(8), NO_BYTES);
    CALL("blocking_write, line 27315",
        celadonsaw_blocking_write(0x42, TWO_BYTES, READINGS(0x210, 8, 0, 0x210, 0), LOG),
        23, 8, 9, 5, LOG_OF_A_WRITE(8), NO_BYTES);
    CALL("blocking_write_read, line 27347",
        celadonsaw_blocking_write_read(0x42, TWO_BYTES, buffer, 2, READINGS(0x210, 8, 0, 0x210, 0), LOG),
        23, 8, 9, 5, LOG_OF_A_WRITE(8), NO_BYTES);
    CALL("transaction, line 27383",
        celadonsaw_transaction(0x42, A_TRANSACTION, FOUR_BYTES, buffer, 2, READINGS(0x210, 8, 0, 0x210, 0), LOG),
        23, 8, 9, 5, LOG_OF_A_WRITE(8), NO_BYTES);
    CALL("read_async, line 27423", celadonsaw_read_async(0x42, buffer, 2, READINGS(0, 0, 8, 0, 0, 0x210, 0), LOG),
        23, 8, 12, 7, LOG_OF_LINE_27423, NO_BYTES);
    CALL("write_async, line 27463", celadonsaw_write_async(0x42, TWO_BYTES, READINGS(0, 8, 0, 0), LOG),
        23, 8, 9, 4, LOG_OF_AN_ASYNC_WRITE(8), NO_BYTES);
    CALL("write_read_async, line 27491",
        celadonsaw_write_read_async(0x42, TWO_BYTES, buffer, 2, READINGS(0, 0, 0, 8, 0, 0, 0x210, 0), LOG),
        23, 8, 15, 8, LOG_OF_LINE_27491, NO_BYTES);
    CALL("transaction_async, line 27539",
        celadonsaw_transaction_async(0x42, A_TRANSACTION, FOUR_BYTES, buffer, 2,
            READINGS(0, 0, 0, 8, 0, 0, 0x210, 0), LOG),
        23, 8, 15, 8, LOG_OF_LINE_27539, NO_BYTES);
}

/* The order of the reasons, and the first of two words. */
static void reasons(void) {
    CALL("write_async, line 27470", celadonsaw_write_async(0x42, TWO_BYTES, READINGS(0, 0x1008, 0, 0), LOG),
        23, 0x1008, 9, 4, LOG_OF_AN_ASYNC_WRITE(0x1008), NO_BYTES);
    CALL("write_async, line 27477", celadonsaw_write_async(0x42, TWO_BYTES, READINGS(0, 9, 0, 0), LOG),
        9, 0, 9, 4, LOG_OF_AN_ASYNC_WRITE(9), NO_BYTES);
    CALL("write_async, line 27484", celadonsaw_write_async(0x42, TWO_BYTES, READINGS(0, 0x1000, 0, 0), LOG),
        10, 0, 9, 4, LOG_OF_AN_ASYNC_WRITE(0x1000), NO_BYTES);
    CALL("blocking_write, line 3233",
        celadonsaw_blocking_write(0x42, TWO_BYTES, READINGS(0x210, 0x10, 0, 0x210, 0), LOG),
        11, 0x10, 9, 5, LOG_OF_A_WRITE(0x10), NO_BYTES);
    CALL("write_async, line 28517",
        celadonsaw_write_async(0x42, SEVENTEEN_BYTES, READINGS(0, 8, 0, 1, 0, 0, 0, 0, 0, 0, 0, 0x200, 0), LOG),
        23, 8, 36, 13, LOG_OF_LINE_28517, NO_BYTES);
}

static void coded_calls(void) {
    CALL("blocking_read_pec, line 27591", celadonsaw_blocking_read_pec(0x42, buffer, 2, READINGS(0, 0, 8, 0), LOG),
        23, 8, 8, 4, LOG_OF_A_READ(8), NO_BYTES);
    CALL("blocking_write_pec, line 27619",
        celadonsaw_blocking_write_pec(0x42, TWO_BYTES, READINGS(0x210, 8, 0, 0x210, 0), LOG),
        23, 8, 9, 5, LOG_OF_A_WRITE(8), NO_BYTES);
    CALL("blocking_write_read_pec, line 27651",
        celadonsaw_blocking_write_read_pec(0x42, TWO_BYTES, buffer, 2, READINGS(0x210, 8, 0, 0x210, 0), LOG),
        23, 8, 9, 5, LOG_OF_A_WRITE(8), NO_BYTES);
    CALL("transaction_pec, line 27687",
        celadonsaw_transaction_pec(0x42, A_TRANSACTION, FOUR_BYTES, buffer, 2, READINGS(0x210, 8, 0, 0x210, 0), LOG),
        23, 8, 9, 5, LOG_OF_A_WRITE(8), NO_BYTES);
    CALL("read_async_pec, line 27727",
        celadonsaw_read_async_pec(0x42, buffer, 2, READINGS(0, 0, 8, 0, 0, 0x210, 0), LOG),
        23, 8, 13, 7, LOG_OF_LINE_27727, NO_BYTES);
    CALL("write_async_pec, line 27767", celadonsaw_write_async_pec(0x42, TWO_BYTES, READINGS(0, 8, 0, 0), LOG),
        23, 8, 10, 4, LOG_OF_LINE_27767, NO_BYTES);
    CALL("write_read_async_pec, line 27795",
        celadonsaw_write_read_async_pec(0x42, TWO_BYTES, buffer, 2, READINGS(0, 0, 0, 8, 0, 0, 0x210, 0), LOG),
        23, 8, 16, 8, LOG_OF_LINE_27795, NO_BYTES);
    CALL("transaction_async_pec, line 27843",
        celadonsaw_transaction_async_pec(0x42, A_TRANSACTION, FOUR_BYTES, buffer, 2,
            READINGS(0, 0, 0, 8, 0, 0, 0x210, 0), LOG),
        23, 8, 15, 8, LOG_OF_LINE_27539, NO_BYTES);
    /* The code is wrong too: the abort comes first, and the byte read stays. */
    CALL("read_async_pec, line 28391",
        celadonsaw_read_async_pec(0x42, buffer, 1, READINGS(0, 0x10, 0, 0xA1, 0xA2, 8, 0, 0), LOG),
        23, 8, 13, 8, LOG_OF_LINE_28391, BYTES(0xA1));
}

/* Those calls by steps. In blocking forms, and in a transaction that ends in a write, the code is not reached. */
static void step_calls(void) {
    for (int coded = 0; coded < 2; coded++) {
        steps(coded, "steps, lines 27287 and 27591", CELADONSAW_BLOCKING_READ, 0x42, BYTES(0), LENGTHS(2), NO_BYTES, 2,
            23, 8, LOG_OF_A_READ(8), NO_BYTES);
        steps(coded, "steps, lines 27315 and 27619", CELADONSAW_BLOCKING_WRITE, 0x42, BYTES(1), LENGTHS(2), TWO_BYTES,
            0, 23, 8, LOG_OF_A_WRITE(8), NO_BYTES);
        steps(coded, "steps, lines 27347 and 27651", CELADONSAW_BLOCKING_WRITE_READ, 0x42, BYTES(1, 0), LENGTHS(2, 2),
            TWO_BYTES, 2, 23, 8, LOG_OF_A_WRITE(8), NO_BYTES);
        steps(coded, "steps, lines 27383 and 27687", CELADONSAW_TRANSACTION, 0x42, A_TRANSACTION, FOUR_BYTES, 2,
            23, 8, LOG_OF_A_WRITE(8), NO_BYTES);
        steps(coded, "steps, lines 27539 and 27843", CELADONSAW_TRANSACTION_ASYNC, 0x42, A_TRANSACTION, FOUR_BYTES, 2,
            23, 8, LOG_OF_LINE_27539, NO_BYTES);
    }
    steps(false, "steps, line 27423", CELADONSAW_READ_ASYNC, 0x42, BYTES(0), LENGTHS(2), NO_BYTES, 2,
        23, 8, LOG_OF_LINE_27423, NO_BYTES);
    steps(false, "steps, line 27491", CELADONSAW_WRITE_READ_ASYNC, 0x42, BYTES(1, 0), LENGTHS(2, 2), TWO_BYTES, 2,
        23, 8, LOG_OF_LINE_27491, NO_BYTES);
    steps(false, "steps, line 27477", CELADONSAW_WRITE_ASYNC, 0x42, BYTES(1), LENGTHS(2), TWO_BYTES, 0,
        9, 0, LOG_OF_AN_ASYNC_WRITE(9), NO_BYTES);
    steps(false, "steps, line 27484", CELADONSAW_WRITE_ASYNC, 0x42, BYTES(1), LENGTHS(2), TWO_BYTES, 0,
        10, 0, LOG_OF_AN_ASYNC_WRITE(0x1000), NO_BYTES);
    steps(false, "steps, line 3233", CELADONSAW_BLOCKING_WRITE, 0x42, BYTES(1), LENGTHS(2), TWO_BYTES, 0,
        11, 0x10, LOG_OF_A_WRITE(0x10), NO_BYTES);
    steps(false, "steps, line 28517", CELADONSAW_WRITE_ASYNC, 0x42, BYTES(1), LENGTHS(17), SEVENTEEN_BYTES, 0,
        23, 8, LOG_OF_LINE_28517, NO_BYTES);
    steps(true, "steps, line 27727", CELADONSAW_READ_ASYNC, 0x42, BYTES(0), LENGTHS(2), NO_BYTES, 2,
        23, 8, LOG_OF_LINE_27727, NO_BYTES);
    steps(true, "steps, line 27767", CELADONSAW_WRITE_ASYNC, 0x42, BYTES(1), LENGTHS(2), TWO_BYTES, 0,
        23, 8, LOG_OF_LINE_27767, NO_BYTES);
    steps(true, "steps, line 27795", CELADONSAW_WRITE_READ_ASYNC, 0x42, BYTES(1, 0), LENGTHS(2, 2), TWO_BYTES, 2,
        23, 8, LOG_OF_LINE_27795, NO_BYTES);
    steps(true, "steps, line 28391", CELADONSAW_READ_ASYNC, 0x42, BYTES(0), LENGTHS(1), NO_BYTES, 1,
        23, 8, LOG_OF_LINE_28391, BYTES(0xA1));
}

static void expect_causes(const char *call, celadonsaw_abort_causes causes, uint8_t count, uint8_t lowest) {
    begin(call);
    expect("count", causes.count, count);
    expect("lowest", causes.lowest, lowest);
}

static void cause_calls(void) {
    expect_causes("causes, no bit", celadonsaw_causes(0), 0, 0);
    expect_causes("causes, a flush count alone", celadonsaw_causes(0x00800000), 0, 0);
    expect_causes("causes, bit 17 alone", celadonsaw_causes(0x20000), 0, 0);
    expect_causes("causes, no cause at all", celadonsaw_causes(0xFFFE0000), 0, 0);
    expect_causes("causes, bit 0", celadonsaw_causes(1), 1, 0);
    expect_causes("causes, bit 3", celadonsaw_causes(8), 1, 3);
    expect_causes("causes, bits 3 and 12", celadonsaw_causes(0x1008), 2, 3);
    expect_causes("causes, all", celadonsaw_causes(0x1FFFF), 17, 0);
    expect_causes("causes, bit 16", celadonsaw_causes(0x10000), 1, 16);
    expect_causes("causes, every bit", celadonsaw_causes(0xFFFFFFFF), 17, 0);
}

int main(void) {
    plain_calls();
    reasons();
    coded_calls();
    step_calls();
    cause_calls();
    return failures != 0;
}
