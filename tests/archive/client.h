/* A sonde, its volume, and a Modbus client of it: what write.c and read.c share. */
#include <stdbool.h>
#include <stdio.h>
#include <string.h>

#include "sonde.h"

#define ENTRIES 12
#define WORDS (64 + 24 * ENTRIES)

/* Entries count from 1; word w of one. */
#define ENTRY(i, w) (64 + 24 * ((i) - 1) + (w))

static uint16_t volume[WORDS];
static Sonde sonde;

/* By method 0 the values are the coefficients, by methods 1 and 2 the points x1, y1, x2, y2. */
typedef struct { uint8_t sensor, method; uint32_t time; float values[4]; } Calibrated;

/* Appends the CRC-16 of Modbus. */
static size_t sealed(uint8_t *bytes, size_t n) {
    uint16_t crc = 0xFFFF;
    for (size_t i = 0; i < n; i++) {
        crc ^= bytes[i];
        for (int bit = 0; bit < 8; bit++) crc = crc & 1 ? (crc >> 1) ^ 0xA001 : crc >> 1;
    }
    bytes[n] = crc & 0xFF;
    bytes[n + 1] = crc >> 8;
    return n + 2;
}

/* Whether a body gets this one as its reply. */
static bool ask(const uint8_t *body, size_t n, const uint8_t *expected, size_t m, uint32_t clock) {
    uint8_t frame[32], due[32], reply[SONDE_REPLY_BYTES];
    memcpy(frame, body, n);
    memcpy(due, expected, m);
    SondeFrame f = sonde_frame(sonde, frame, sealed(frame, n), reply, sizeof reply, volume, WORDS, clock, false, SONDE_PORT_SERIAL);
    sonde = f.sonde;
    return f.number == SONDE_OK && f.length == sealed(due, m) && memcmp(reply, due, f.length) == 0;
}

/* Function 6. */
static bool put(uint16_t at, uint16_t word, uint32_t clock) {
    const uint8_t body[] = {sonde.address, 6, at >> 8, at & 0xFF, word >> 8, word & 0xFF};
    return ask(body, sizeof body, body, sizeof body, clock);
}

/* Function 16. */
static bool put_float(uint16_t at, float value) {
    uint32_t bits;
    memcpy(&bits, &value, sizeof bits);
    const uint8_t body[] = {sonde.address, 16, at >> 8, at & 0xFF, 0, 2, 4, bits >> 24, bits >> 16 & 0xFF, bits >> 8 & 0xFF, bits & 0xFF};
    return ask(body, sizeof body, body, 6, 0);
}

/* A calibration from mode on to mode off; whether each of its frames was carried out. */
static bool calibrate(const Calibrated *c) {
    uint16_t at = 100 * c->sensor, values = at + (c->method == 0 ? 10 : 16);
    int count = c->sensor == 3 ? 3 : c->method == 2 ? 4 : 2;
    bool done = put(at + 5, 0xE000, 0);
    if (c->sensor != 3) done = done && put(at + 6, c->method, 0);
    for (int i = 0; i < count; i++) done = done && put_float(values + 2 * i, c->values[i]);
    return done && put(at + 5, 0xE001, c->time) && put(at + 5, 0xE002, 0);
}
