/* The driver's calls, as the static libraries have them: libexport_calls.a (whole calls) and libexport_steps.a (a transfer by
 * steps), which bindings/libraries builds and leaves in target/staticlib.
 *
 * A call is given the words that its register reads return (`readings`) and leaves a log of its accesses (`log`): two words an
 * entry, the kind times 256 plus the register's offset or the mark, then the value. Kinds: 1 a read, 2 a write, 3 a mark (0 a
 * poll that is not done, 1 a reset of the block). A log of n words has room for n / 2 entries.
 *
 * Every slice is a pointer and a length in elements. A pointer is never null and is aligned, also where the length is 0; a
 * slice that a call writes overlaps no other slice of the call. Nothing else is asked of a caller: for every other input the
 * call ends and leaves what docs/MANUAL.md says. The clock and the slave have whole calls only; a master's transfer goes by steps too.
 *
 * Limits: a buffer, or one direction of a transaction in total, has at most 4,096 bytes, and a transaction at most 64 operations.
 */
#ifndef CELADONSAW_H
#define CELADONSAW_H

#include <stdbool.h>
#include <stddef.h>
#include <stdint.h>

#ifdef __cplusplus
extern "C" {
#endif

/* What a call answers. number 0: accepted. Otherwise the call was turned down:
 *  1 frequency above 1,000,000        2 frequency 0                    3 clock above 1,431,655,765
 *  4 a count above 65,535             5 a count too small              6 master address above 0x7F (detail: the address)
 *  7 empty read                       8 empty write (async: coded)     9 not acknowledged
 * 10 arbitration lost                11 other abort (detail: the raw word)
 * 12 TXFLR above 16 (the level)      13 empty response
 * 14 listen buffer full, 15 the same with a general call (detail: the length)
 * 16 slave address 0                 17 a pending byte and an empty listen buffer
 * 18 a read is next, readings used up                                19 an access or mark is next, log full
 * 20 over the limits, lengths that do not add up to the buffers, a kind that is neither 0 nor 1; with steps, a form above 7 or
 *    kinds that are not those of the form
 * 22 the packet error code that was fetched is wrong
 * 23 a data byte was not acknowledged (detail: the raw word)
 * An abort of the master goes by the first word other than 0 that the call read from TX_ABRT_SOURCE: 9 for bits 0 to 2, then 23
 * for bit 3, then 10 for bit 12, and 11 for every other word. The slave has no 23.
 * 1, 2, 3, 6, 13, 16, 17 and 20 make no access; 4 and 5 none but ENABLE 0. Bytes not yet read stay as they are.
 * detail of an accepted call: see the slave's calls; 0 of all others. */
typedef struct {
    uint8_t number;
    uint32_t detail;
    size_t entries; /* entries in the log */
    size_t used;    /* readings used */
} celadonsaw_report;

/* Sets the bus frequency for a clock, both in Hz. Refusals: 1 to 5, 18, 19. */
celadonsaw_report celadonsaw_set_config(uint32_t frequency, uint32_t clk,
    const uint32_t *readings, size_t readings_len, uint32_t *log, size_t log_len);

/* The rate that the bus gets from a setting, by the counts that celadonsaw_set_config writes for it: clk = hz * (hcnt + lcnt) +
 * remainder, and the remainder is below hcnt + lcnt. number 0: there is a rate. Otherwise the number, 1 to 5, under which
 * celadonsaw_set_config refuses the setting; hz and remainder are then 0. It makes no access: it is the rate once
 * celadonsaw_set_config has accepted the same setting. */
typedef struct {
    uint8_t number;
    uint32_t hz;        /* whole Hz, at least 1 */
    uint32_t remainder; /* what the division leaves, below hcnt + lcnt */
} celadonsaw_rate;
celadonsaw_rate celadonsaw_bus_rate(uint32_t frequency, uint32_t clk);

/* The causes of an abort in a raw word of TX_ABRT_SOURCE, as 11 and 23 have it as detail: bits 0 to 16. Bits 17 to 31,
 * reserved bits and the flush count, are no causes. It makes no access. */
typedef struct {
    uint8_t count;  /* how many are set, 0 to 17; 0: none */
    uint8_t lowest; /* the bit of the lowest of them, 0 to 16; 0 where there is none */
} celadonsaw_abort_causes;
celadonsaw_abort_causes celadonsaw_causes(uint32_t word);

/* ---- the master's transfers: refusals among 6 to 12, 18 to 20 and 23 (8 of an async write only where it is coded, see below);
 *      docs/MANUAL.md has those of each call ---- */

/* Reads into the buffer. Blocking, and by polls. An empty buffer is 7, after the address is set up. */
celadonsaw_report celadonsaw_blocking_read(uint16_t address, uint8_t *read, size_t read_len,
    const uint32_t *readings, size_t readings_len, uint32_t *log, size_t log_len);
celadonsaw_report celadonsaw_read_async(uint16_t address, uint8_t *read, size_t read_len,
    const uint32_t *readings, size_t readings_len, uint32_t *log, size_t log_len);

/* Writes the bytes. Blocking (no bytes are 8), and by polls (no bytes are accepted). */
celadonsaw_report celadonsaw_blocking_write(uint16_t address, const uint8_t *write, size_t write_len,
    const uint32_t *readings, size_t readings_len, uint32_t *log, size_t log_len);
celadonsaw_report celadonsaw_write_async(uint16_t address, const uint8_t *write, size_t write_len,
    const uint32_t *readings, size_t readings_len, uint32_t *log, size_t log_len);

/* Writes the bytes, then reads into the buffer. Blocking, and by polls. */
celadonsaw_report celadonsaw_blocking_write_read(uint16_t address, const uint8_t *write, size_t write_len,
    uint8_t *read, size_t read_len,
    const uint32_t *readings, size_t readings_len, uint32_t *log, size_t log_len);
celadonsaw_report celadonsaw_write_read_async(uint16_t address, const uint8_t *write, size_t write_len,
    uint8_t *read, size_t read_len,
    const uint32_t *readings, size_t readings_len, uint32_t *log, size_t log_len);

/* Operations in order: kinds (0 a read, 1 a write) and lengths, as many of each. The writes' bytes stand end to end in `write`,
 * the reads' in `read`. Blocking, and by polls (no operations: accepted without an access, at any address). */
celadonsaw_report celadonsaw_transaction(uint16_t address, const uint8_t *kinds, size_t kinds_len,
    const uint16_t *lengths, size_t lengths_len, const uint8_t *write, size_t write_len, uint8_t *read, size_t read_len,
    const uint32_t *readings, size_t readings_len, uint32_t *log, size_t log_len);
celadonsaw_report celadonsaw_transaction_async(uint16_t address, const uint8_t *kinds, size_t kinds_len,
    const uint16_t *lengths, size_t lengths_len, const uint8_t *write, size_t write_len, uint8_t *read, size_t read_len,
    const uint32_t *readings, size_t readings_len, uint32_t *log, size_t log_len);

/* ---- the same with a packet error code (SMBus) ----
 *
 * A CRC-8 (polynomial 0x07, start 0) over every byte of the message, address bytes included, those after a RESTART too. A
 * transfer that ends in a write sends it as its last byte; one that ends in a read fetches one byte more and tests it: 22 where
 * it is wrong, after all aborts, and the bytes read stay. The other refusals are those of the plain calls, but that an empty
 * write is 8 in both modes. The code is neither in the buffers nor in their lengths nor in the 4,096. Without operations there
 * is no code. */
celadonsaw_report celadonsaw_blocking_read_pec(uint16_t address, uint8_t *read, size_t read_len,
    const uint32_t *readings, size_t readings_len, uint32_t *log, size_t log_len);
celadonsaw_report celadonsaw_read_async_pec(uint16_t address, uint8_t *read, size_t read_len,
    const uint32_t *readings, size_t readings_len, uint32_t *log, size_t log_len);
celadonsaw_report celadonsaw_blocking_write_pec(uint16_t address, const uint8_t *write, size_t write_len,
    const uint32_t *readings, size_t readings_len, uint32_t *log, size_t log_len);
celadonsaw_report celadonsaw_write_async_pec(uint16_t address, const uint8_t *write, size_t write_len,
    const uint32_t *readings, size_t readings_len, uint32_t *log, size_t log_len);
celadonsaw_report celadonsaw_blocking_write_read_pec(uint16_t address, const uint8_t *write, size_t write_len,
    uint8_t *read, size_t read_len,
    const uint32_t *readings, size_t readings_len, uint32_t *log, size_t log_len);
celadonsaw_report celadonsaw_write_read_async_pec(uint16_t address, const uint8_t *write, size_t write_len,
    uint8_t *read, size_t read_len,
    const uint32_t *readings, size_t readings_len, uint32_t *log, size_t log_len);
celadonsaw_report celadonsaw_transaction_pec(uint16_t address, const uint8_t *kinds, size_t kinds_len,
    const uint16_t *lengths, size_t lengths_len, const uint8_t *write, size_t write_len, uint8_t *read, size_t read_len,
    const uint32_t *readings, size_t readings_len, uint32_t *log, size_t log_len);
celadonsaw_report celadonsaw_transaction_async_pec(uint16_t address, const uint8_t *kinds, size_t kinds_len,
    const uint16_t *lengths, size_t lengths_len, const uint8_t *write, size_t write_len, uint8_t *read, size_t read_len,
    const uint32_t *readings, size_t readings_len, uint32_t *log, size_t log_len);

/* That CRC-8 over bytes, from a start value: 0, or what the bytes before them left. Over a message with its right code it is 0. */
uint8_t celadonsaw_crc8(uint8_t start, const uint8_t *bytes, size_t bytes_len);

/* ---- the slave's calls: refusals among 9 to 11 and 13 to 20; docs/MANUAL.md has those of each call ---- */

/* What lasts from call to call: hand each call what the one before it left. A new slave is all zeros. */
typedef struct {
    bool has_pending; /* a byte was received for the next message */
    uint8_t pending_byte; /* that byte; a call leaves 0 where there is none */
    uint16_t address;
    bool general_call;
} celadonsaw_slave;

typedef struct {
    celadonsaw_slave state;
    celadonsaw_report report;
} celadonsaw_slave_report;

/* Resets the block and sets address and general call; a pending byte stays. Address 0 is 16. */
celadonsaw_slave_report celadonsaw_slave_reset(celadonsaw_slave slave, uint16_t address, bool general_call,
    const uint32_t *readings, size_t readings_len, uint32_t *log, size_t log_len);

/* Waits for a command. Accepted detail: 1 GeneralCall, 2 Read, 3 WriteRead, 4 Write in the upper half, the count of bytes in the
 * lower. A message that fills the buffer is 14 or 15; an empty buffer with a pending byte is 17. */
celadonsaw_slave_report celadonsaw_slave_listen(celadonsaw_slave slave, uint8_t *buffer, size_t buffer_len,
    const uint32_t *readings, size_t readings_len, uint32_t *log, size_t log_len);

/* Answers a read with the bytes. Accepted detail: 1 Done, 2 NeedMoreBytes, 3 LeftoverBytes in the upper half, the count in the
 * lower. No bytes are 13. */
celadonsaw_slave_report celadonsaw_slave_respond_to_read(celadonsaw_slave slave, const uint8_t *bytes, size_t bytes_len,
    const uint32_t *readings, size_t readings_len, uint32_t *log, size_t log_len);

/* Answers a read with the fill byte until it stops. */
celadonsaw_slave_report celadonsaw_slave_respond_till_stop(celadonsaw_slave slave, uint8_t fill,
    const uint32_t *readings, size_t readings_len, uint32_t *log, size_t log_len);

/* Answers a read with the bytes, then with the fill byte. Detail as of `respond_to_read`. */
celadonsaw_slave_report celadonsaw_slave_respond_and_fill(celadonsaw_slave slave, const uint8_t *bytes, size_t bytes_len,
    uint8_t fill, const uint32_t *readings, size_t readings_len, uint32_t *log, size_t log_len);

/* ---- a master transfer, one access at a time ----
 *
 *     celadonsaw_transfer t;
 *     celadonsaw_start(&t, ...);
 *     celadonsaw_access a = celadonsaw_next_access(&t, write, write_len);
 *     while (a.kind != 0) {
 *         uint32_t v = perform(a);                         -- 0 where nothing is read
 *         a = celadonsaw_step(&t, v, ...);
 *     }                                                    -- a.number, a.value: the answer
 *
 * makes the accesses of the call, in order, and leaves its buffer and its answer. 18 and 19 are not told: readings and log are
 * the caller's. */

/* Where a transfer stands. The caller keeps it and does not look inside; words that no function left are not undefined
 * behaviour, but make some other transfer. */
typedef struct {
    uint64_t words[20];
} celadonsaw_transfer;

/* The access that is next: kind 1 reads the register at that offset, 2 writes the value to it, 3 is a mark (register 0: a poll
 * is not done, wait for an interrupt or poll again), 0 is the end with the answer's number and, as value, its detail. */
typedef struct {
    uint8_t kind;
    uint8_t reg;
    uint8_t number;
    uint32_t value;
} celadonsaw_access;

/* The forms of a transfer: blocking, and by polls. A read has kinds {0}, a write {1}, a write-read {1, 0}, a transaction any. */
enum {
    CELADONSAW_BLOCKING_READ = 0,
    CELADONSAW_BLOCKING_WRITE = 1,
    CELADONSAW_BLOCKING_WRITE_READ = 2,
    CELADONSAW_TRANSACTION = 3,
    CELADONSAW_READ_ASYNC = 4,
    CELADONSAW_WRITE_ASYNC = 5,
    CELADONSAW_WRITE_READ_ASYNC = 6,
    CELADONSAW_TRANSACTION_ASYNC = 7
};

/* Puts a transfer of a form before its first access. write_len and read_len are the buffers' lengths. 20 where the form is above
 * 7, the kinds are not those of the form, or the lengths do not add up to the buffers'. kinds, lengths and both buffers stay the
 * same up to the end. */
void celadonsaw_start(celadonsaw_transfer *transfer, uint8_t form, uint16_t address,
    const uint8_t *kinds, size_t kinds_len, const uint16_t *lengths, size_t lengths_len, size_t write_len, size_t read_len);

celadonsaw_access celadonsaw_next_access(const celadonsaw_transfer *transfer, const uint8_t *write, size_t write_len);

/* Goes on after that access, which read `value`; a byte received is stored in `read`. At the end nothing changes. */
void celadonsaw_advance(celadonsaw_transfer *transfer, uint32_t value, const uint8_t *kinds, size_t kinds_len,
    const uint16_t *lengths, size_t lengths_len, uint8_t *read, size_t read_len);

/* Both in one call: goes on, and tells the access that is next. */
celadonsaw_access celadonsaw_step(celadonsaw_transfer *transfer, uint32_t value, const uint8_t *kinds, size_t kinds_len,
    const uint16_t *lengths, size_t lengths_len, const uint8_t *write, size_t write_len, uint8_t *read, size_t read_len);

/* ---- the same with a packet error code ----
 *
 * Beside the transfer the caller keeps its code so far: `celadonsaw_start_pec` sets it, and nobody looks inside. Kinds, lengths
 * and buffers are those of the data, and forms those above. `celadonsaw_advance_pec` also takes the write buffer, since the byte
 * that was sent goes into the code. At the end number 22 may be told. A transfer goes by these four functions or by the four
 * above, not by both. */
typedef struct {
    uint8_t bytes[2];
} celadonsaw_code;

void celadonsaw_start_pec(celadonsaw_transfer *transfer, celadonsaw_code *code, uint8_t form, uint16_t address,
    const uint8_t *kinds, size_t kinds_len, const uint16_t *lengths, size_t lengths_len, size_t write_len, size_t read_len);
celadonsaw_access celadonsaw_next_access_pec(const celadonsaw_transfer *transfer, const celadonsaw_code *code,
    const uint8_t *write, size_t write_len);
void celadonsaw_advance_pec(celadonsaw_transfer *transfer, celadonsaw_code *code, uint32_t value,
    const uint8_t *kinds, size_t kinds_len, const uint16_t *lengths, size_t lengths_len,
    const uint8_t *write, size_t write_len, uint8_t *read, size_t read_len);
celadonsaw_access celadonsaw_step_pec(celadonsaw_transfer *transfer, celadonsaw_code *code, uint32_t value,
    const uint8_t *kinds, size_t kinds_len, const uint16_t *lengths, size_t lengths_len,
    const uint8_t *write, size_t write_len, uint8_t *read, size_t read_len);

#ifdef __cplusplus
}
#endif

#endif
