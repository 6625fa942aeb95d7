/*
 * The stack that the calls take, their arguments and results included. Each call is made on a painted stack of its own, and the paint that is gone
 * is counted: over the life of a sonde whose journal fills up to 1000 entries, with the longest read (24 registers), the longest frame and a bad
 * one, in RTU, in ASCII and over the radio; the last entry is then appended again, cut after each of its stores and salvaged.
 *
 *     stack BOUND
 *
 * prints the most bytes of each call. The exit status is 1 where a call takes more than BOUND, or BOUND is more than 1.3 times the most.
 */
#include <stdio.h>
#include <stdlib.h>
#include <string.h>
#include <ucontext.h>

#include "sonde.h"

#define PAINT 0xA5
#define WORDS SONDE_MOST_WORDS

static _Alignas(16) uint8_t stack[1 << 16];
static ucontext_t host, call;

static uint16_t volume[WORDS];
static uint8_t frame[600], reply[SONDE_ASCII_REPLY_BYTES];
static size_t frame_len;
static struct Way { bool ascii; uint8_t port, most; } way; /* how a frame comes, and the longest body that comes so */
static uint32_t clock_now;
static Sonde sonde;
static SondeMade made;
static SondeFrame answer;
static SondeAudit audit;
static SondePrint printed;
static SondeEntry entry;
static size_t stores;
static SondeSalvage salvaged;
static uint8_t page[SONDE_MOST_PAGE_BYTES];
static uint16_t sum;

/* The bytes of stack that f takes. */
static size_t taken(void (*f)(void)) {
    memset(stack, PAINT, sizeof stack);
    getcontext(&call);
    call.uc_stack.ss_sp = stack;
    call.uc_stack.ss_size = sizeof stack;
    call.uc_link = &host;
    makecontext(&call, f, 0);
    swapcontext(&host, &call);
    size_t left = 0;
    while (left < sizeof stack && stack[left] == PAINT) left++;
    return sizeof stack - left;
}

static void call_nothing(void) {}
static void call_fresh(void) { made = sonde_fresh(1); }
static void call_begin(void) { made = sonde_begin(sonde, volume, WORDS); }
static void call_power_up(void) { made = sonde_power_up(1, volume, WORDS); }
static void call_measure(void) { made = sonde_measure(sonde, 1, true, 1000.0f, 20.0f); }
static void call_frame(void) {
    size_t reply_len = way.ascii ? SONDE_ASCII_REPLY_BYTES : SONDE_REPLY_BYTES;
    answer = sonde_frame(sonde, frame, frame_len, reply, reply_len, volume, WORDS, clock_now, way.ascii, way.port);
}
static void call_audit(void) { audit = sonde_audit(sonde, volume, WORDS); }
static void call_print(void) { printed = sonde_print(volume, WORDS, page, sizeof page); }
static void call_append(void) { sonde_append(volume, WORDS, entry, stores); }
static void call_salvage(void) { salvaged = sonde_salvage(volume, WORDS); }
static void call_crc_round(void) { sum = sonde_crc_round(sum, 0x3231); }

enum { NOTHING, FRESH, BEGIN, POWER_UP, MEASURE, FRAME, AUDIT, PRINT, APPEND, SALVAGE, CRC_ROUND, CALLS };

static const struct { const char *name; void (*f)(void); } calls[CALLS] = {
    {"no call", call_nothing}, {"sonde_fresh", call_fresh}, {"sonde_begin", call_begin}, {"sonde_power_up", call_power_up},
    {"sonde_measure", call_measure}, {"sonde_frame", call_frame}, {"sonde_audit", call_audit}, {"sonde_print", call_print},
    {"sonde_append", call_append}, {"sonde_salvage", call_salvage}, {"sonde_crc_round", call_crc_round},
};
static size_t most[CALLS];

static void measured(int which) {
    size_t n = taken(calls[which].f);
    if (n > most[which]) most[which] = n;
}

static void expect(bool holds, const char *what) {
    if (holds) return;
    printf("FAILED: %s\n", what);
    exit(1);
}

static void make(int which) {
    measured(which);
    expect(made.number == SONDE_OK, calls[which].name);
    sonde = made.sonde;
}

/* The RTU frame of a body. */
static void seal_rtu(const uint8_t *body, size_t n) {
    uint16_t crc = 0xFFFF;
    memcpy(frame, body, n);
    for (size_t i = 0; i < n; i++) {
        crc ^= frame[i];
        for (int bit = 0; bit < 8; bit++) crc = crc & 1 ? (crc >> 1) ^ 0xA001 : crc >> 1;
    }
    frame[n] = crc & 0xFF;
    frame[n + 1] = crc >> 8;
    frame_len = n + 2;
}

/* The ASCII frame of a body. */
static void seal_ascii(const uint8_t *body, size_t n) {
    uint8_t sum = 0;
    char *at = (char *)frame;
    *at++ = ':';
    for (size_t i = 0; i < n; i++) {
        sum += body[i];
        at += sprintf(at, "%02X", body[i]);
    }
    at += sprintf(at, "%02X\r\n", (uint8_t)-sum);
    frame_len = (size_t)(at - (char *)frame);
}

/* Whether the reply's second byte is this: the function, or the function with 0x80. */
static bool answered(uint8_t function) {
    char digits[3];
    sprintf(digits, "%02X", function);
    return answer.length > 0 && (way.ascii ? memcmp(reply + 3, digits, 2) == 0 : reply[1] == function);
}

/* The frame of a body, in the framing of `way`. */
static void seal(const uint8_t *body, size_t n) {
    if (way.ascii) seal_ascii(body, n);
    else seal_rtu(body, n);
}

static void ask(const uint8_t *body, size_t n, uint8_t function) {
    seal(body, n);
    measured(FRAME);
    expect(answer.number == SONDE_OK && answered(function), "a frame's reply");
    sonde = answer.sonde;
}

/* Sends a frame that its port doesn't take. */
static void ask_bad(void) {
    uint16_t bad = sonde.counters.bad;
    measured(FRAME);
    expect(answer.number == SONDE_OK && answer.length == 0 && answer.sonde.counters.bad == bad + 1, "a bad frame");
    sonde = answer.sonde;
}

static const uint8_t mode_on[] = {1, 6, 0, 205, 0xE0, 0x00}, update[] = {1, 6, 0, 205, 0xE0, 0x01},
                     longest_read[] = {1, 3, 0, 130, 0, 24};
static const uint8_t longest[254] = {1, 16, 0, 100, 0, 123, 246}; /* of another length than its count has: code 3 */

static const struct Way ways[] = {
    {false, SONDE_PORT_SERIAL, sizeof longest}, {true, SONDE_PORT_SERIAL, sizeof longest}, {false, SONDE_PORT_RADIO, 62},
};
#define WAYS (sizeof ways / sizeof *ways)

/* The longest read, the longest frame, and the same with its last digit or byte changed, and with a byte less. */
static void ask_longest(void) {
    ask(longest_read, sizeof longest_read, 3);
    ask(longest, way.most, 0x90);
    frame[frame_len - (way.ascii ? 3 : 1)] ^= 1;
    ask_bad();
    frame_len--;
    ask_bad();
}

/* The longest frames of the serial line, over the radio. */
static void ask_beyond_radio(void) {
    for (int i = 0; i < 2; i++) {
        way = (struct Way){i == 1, SONDE_PORT_RADIO, sizeof longest};
        seal(longest, sizeof longest);
        ask_bad();
    }
}

static void ask_all_ways(void) {
    for (size_t i = 0; i < WAYS; i++) {
        way = ways[i];
        ask_longest();
    }
    ask_beyond_radio();
}

/* A salvage that changes so many words. */
static void salvage(uint16_t changed) {
    measured(SALVAGE);
    expect(salvaged.number == SONDE_OK && salvaged.changed == changed, "a salvage");
}

/* The last of 1000 entries, all of sensor 2, is taken back; then it is cut after each of its stores, and with all of them the volume is as it was. */
static void cut_and_salvage(void) {
    entry = (SondeEntry){.sensor = 2, .calibration = sonde.sensors[1].setup.active.calibration};
    volume[2] = 999;
    salvage(2); /* the next word of entry 999, and the chain's last */
    for (stores = 0; stores <= SONDE_APPEND_STORES; stores++) {
        measured(APPEND);
        expect(volume[2] == (stores < SONDE_APPEND_STORES ? 999 : 1000), "the entries in use after a cut");
        salvage(stores == 25 ? 1 : stores == 26 ? 2 : 0);
    }
    measured(APPEND); /* the journal is full */
    volume[0] = 2;
    measured(SALVAGE);
    expect(salvaged.number == SONDE_BEYOND_SALVAGE && salvaged.changed == 0, "a salvage of another format");
    volume[0] = 1;
}

int main(int argc, char **argv) {
    size_t bound = argc > 1 ? strtoul(argv[1], NULL, 10) : 0, deepest = 0;
    measured(NOTHING);
    make(FRESH);
    make(BEGIN);
    make(MEASURE);
    way = ways[0];
    ask(mode_on, sizeof mode_on, 6);
    for (clock_now = 1; clock_now <= 1000; clock_now++) {
        way = ways[clock_now % WAYS];
        ask(update, sizeof update, 6);
    }
    for (size_t i = 0; i < WAYS; i++) {
        way = ways[i];
        ask(update, sizeof update, 0x86); /* the journal is full */
    }
    ask_all_ways();
    cut_and_salvage();
    measured(AUDIT);
    expect(audit.number == SONDE_OK && audit.entries == 1000, "the audit of 1000 entries");
    measured(PRINT);
    expect(printed.number == SONDE_OK && printed.length == sizeof page && page[sizeof page - 1] == '\n', "the print of 1000 entries");
    sum = 0xFFFF;
    measured(CRC_ROUND);
    expect(sum == 0xF595, "a round of the CRC");
    make(MEASURE);
    make(POWER_UP);
    ask_all_ways();
    for (int i = 0; i < CALLS; i++) {
        printf("%-15s %5zu\n", calls[i].name, most[i]);
        if (most[i] > deepest) deepest = most[i];
    }
    expect(deepest <= bound, "a call takes more stack than was said");
    expect(10 * bound <= 13 * deepest, "the calls take far less stack than was said");
    return 0;
}
