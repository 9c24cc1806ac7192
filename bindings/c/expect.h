/* What the programs that test the C interface share: lists as arguments, and calls and steps held to values. */
#ifndef EXPECT_H
#define EXPECT_H

#include "celadonsaw.h"
#include <stdio.h>
#include <string.h>

enum { LOG_WORDS = 128, BUFFER_BYTES = 24, UNREAD = 0xEE };
#define UNWRITTEN 0xEEEEEEEEu

static const char *name; /* of the call at hand */
static int failures;
static uint32_t log_words[LOG_WORDS];
static uint8_t buffer[BUFFER_BYTES];
/* A pointer is not null, also where the length is 0. */
static const struct {
    uint8_t bytes[1];
    uint16_t lengths[1];
    uint32_t words[1];
} nothing;

/* A list and its length, as two arguments. */
#define LIST(type, ...) (const type[]){__VA_ARGS__}, sizeof(const type[]){__VA_ARGS__} / sizeof(type)
#define BYTES(...) LIST(uint8_t, __VA_ARGS__)
#define LENGTHS(...) LIST(uint16_t, __VA_ARGS__)
#define READINGS(...) LIST(uint32_t, __VA_ARGS__, 0xBAD, 0xBAD, 0xBAD)
#define LOGGED(...) LIST(uint32_t, __VA_ARGS__)
#define NO_BYTES nothing.bytes, 0
#define NO_LENGTHS nothing.lengths, 0
#define NOTHING_LOGGED nothing.words, 0
#define LOG log_words, LOG_WORDS

/* The two words of a log's entry. */
#define R(offset, value) 0x100 + (offset), value
#define W(offset, value) 0x200 + (offset), value
#define PENDING 0x300, 0
#define BLOCK_RESET 0x301, 0
#define SETUP(address) W(0x6C, 0), W(0x04, address), W(0x6C, 1)

static void expect(const char *what, uint64_t found, uint64_t expected) {
    if (found != expected) {
        printf("%s: %s is %llX, not %llX\n", name, what, (unsigned long long)found, (unsigned long long)expected);
        failures++;
    }
}

static void expect_at(const char *what, size_t index, uint64_t found, uint64_t expected) {
    char place[48];
    snprintf(place, sizeof place, "%s %zu", what, index);
    expect(place, found, expected);
}

static void begin(const char *call) {
    name = call;
    memset(buffer, UNREAD, sizeof buffer);
    for (size_t i = 0; i < LOG_WORDS; i++)
        log_words[i] = UNWRITTEN;
}

static void expect_buffer(const uint8_t *bytes, size_t count) {
    for (size_t i = 0; i < BUFFER_BYTES; i++)
        expect_at("byte", i, buffer[i], i < count ? bytes[i] : UNREAD);
}

static void expect_report(celadonsaw_report report, uint8_t number, uint32_t detail, size_t entries, size_t used,
    const uint32_t *words, size_t count, const uint8_t *bytes, size_t bytes_len) {
    expect("number", report.number, number);
    expect("detail", report.detail, detail);
    expect("entries", report.entries, entries);
    expect("used", report.used, used);
    for (size_t i = 0; i < LOG_WORDS; i++)
        expect_at("log word", i, log_words[i], i < count ? words[i] : UNWRITTEN);
    expect_buffer(bytes, bytes_len);
}

/* A call; then number, detail, entries, used, the log and the bytes read that it is to leave. */
#define CALL(call_name, call, ...) (begin(call_name), expect_report(call, __VA_ARGS__))

static void expect_access(
    size_t index, celadonsaw_access access, uint8_t kind, uint8_t reg, uint8_t number, uint32_t value) {
    expect_at("kind of access", index, access.kind, kind);
    expect_at("register of access", index, access.reg, reg);
    expect_at("number of access", index, access.number, number);
    expect_at("value of access", index, access.value, value);
}

/* A transfer under way, with or without a packet error code, and what each step is given. */
typedef struct {
    bool coded;
    celadonsaw_transfer transfer;
    celadonsaw_code code;
    const uint8_t *kinds;
    size_t kinds_len;
    const uint16_t *lengths;
    size_t lengths_len;
    const uint8_t *write;
    size_t write_len;
    size_t read_len;
} under_way;

static void start(under_way *t, uint8_t form, uint16_t address) {
    memset(&t->transfer, UNREAD, sizeof t->transfer);
    memset(&t->code, UNREAD, sizeof t->code);
    if (t->coded)
        celadonsaw_start_pec(&t->transfer, &t->code, form, address, t->kinds, t->kinds_len, t->lengths,
            t->lengths_len, t->write_len, t->read_len);
    else
        celadonsaw_start(&t->transfer, form, address, t->kinds, t->kinds_len, t->lengths, t->lengths_len, t->write_len,
            t->read_len);
}

static celadonsaw_access next_access(const under_way *t) {
    return t->coded ? celadonsaw_next_access_pec(&t->transfer, &t->code, t->write, t->write_len)
                    : celadonsaw_next_access(&t->transfer, t->write, t->write_len);
}

static celadonsaw_access step(under_way *t, uint32_t value) {
    return t->coded ? celadonsaw_step_pec(&t->transfer, &t->code, value, t->kinds, t->kinds_len, t->lengths,
                          t->lengths_len, t->write, t->write_len, buffer, t->read_len)
                    : celadonsaw_step(&t->transfer, value, t->kinds, t->kinds_len, t->lengths, t->lengths_len, t->write,
                          t->write_len, buffer, t->read_len);
}

static void advance(under_way *t, uint32_t value) {
    if (t->coded)
        celadonsaw_advance_pec(&t->transfer, &t->code, value, t->kinds, t->kinds_len, t->lengths, t->lengths_len,
            t->write, t->write_len, buffer, t->read_len);
    else
        celadonsaw_advance(&t->transfer, value, t->kinds, t->kinds_len, t->lengths, t->lengths_len, buffer,
            t->read_len);
}

/* A transfer by steps, which makes the accesses of a log and ends with number and detail: once by `step`, once by
 * `advance` and `next_access`. After the end nothing changes. */
static void steps(bool coded, const char *call, uint8_t form, uint16_t address, const uint8_t *kinds, size_t kinds_len,
    const uint16_t *lengths, size_t lengths_len, const uint8_t *write, size_t write_len, size_t read_len,
    uint8_t number, uint32_t detail, const uint32_t *words, size_t count, const uint8_t *bytes, size_t bytes_len) {
    for (int in_one = 0; in_one < 2; in_one++) {
        begin(call);
        under_way t = {.coded = coded, .kinds = kinds, .kinds_len = kinds_len, .lengths = lengths,
            .lengths_len = lengths_len, .write = write, .write_len = write_len, .read_len = read_len};
        start(&t, form, address);
        celadonsaw_access access = next_access(&t);
        for (size_t i = 0; i < count / 2 + 2; i++) {
            uint32_t reading = 0xBAD;
            if (i < count / 2) {
                uint8_t kind = (uint8_t)(words[2 * i] >> 8);
                uint32_t value = words[2 * i + 1];
                expect_access(i, access, kind, (uint8_t)words[2 * i], 0, kind == 2 ? value : 0);
                reading = kind == 1 ? value : 0;
            } else {
                expect_access(i, access, 0, 0, number, detail);
            }
            if (in_one) {
                access = step(&t, reading);
            } else {
                advance(&t, reading);
                access = next_access(&t);
            }
        }
        expect_buffer(bytes, bytes_len);
    }
}

#endif
