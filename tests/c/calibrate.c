/*
 * A host in C, through include/sonde.h: begins a volume, calibrates sensor 2 over frames (two points), reads the calibration back, powers up
 * and audits, then does the same in ASCII, and in both framings side by side; then frames over the radio beside the serial line, and what the radio
 * doesn't take; then an update that fails for its limits alone, read back and corrected; then technicians who give their numbers, and the entries that
 * name them; then it prints a journal, sums frames by rounds of the CRC, and at last cuts appends short and salvages what they leave. Each step is
 * compared with the bytes and numbers that documents 01 and 02 give; the exit status is 1 where one differs.
 */
#include <stdio.h>
#include <string.h>

#include "sonde.h"

#define WORDS 136 /* capacity 3 */

static uint16_t volume[WORDS];
static uint8_t reply[SONDE_ASCII_REPLY_BYTES]; /* RTU frames are lent the first SONDE_REPLY_BYTES */
static int failed;

static void check(bool holds, const char *what) {
    printf("%s %s\n", holds ? "ok    " : "FAILED", what);
    failed |= !holds;
}

/* The CRC-16 of Modbus, by bits. */
static uint16_t crc(const uint8_t *bytes, size_t n) {
    uint16_t c = 0xFFFF;
    for (size_t i = 0; i < n; i++) {
        c ^= bytes[i];
        for (int bit = 0; bit < 8; bit++) c = c & 1 ? (c >> 1) ^ 0xA001 : c >> 1;
    }
    return c;
}

static size_t sealed(uint8_t *bytes, size_t n) {
    uint16_t c = crc(bytes, n);
    bytes[n] = c & 0xFF;
    bytes[n + 1] = c >> 8;
    return n + 2;
}

/* Whether the reply buffer past n bytes is as it was before the frame. */
static bool rest_stays(size_t n) {
    for (size_t i = n; i < sizeof reply; i++)
        if (reply[i] != 0xAA) return false;
    return true;
}

/* Sends a frame, with so many bytes of the reply buffer lent. */
static SondeFrame send_frame(Sonde sonde, const void *frame, size_t n, size_t reply_len, bool ascii, uint8_t port) {
    memset(reply, 0xAA, sizeof reply);
    return sonde_frame(sonde, frame, n, reply, reply_len, volume, WORDS, 0x12345678, ascii, port);
}

/* In RTU, over the serial line. */
static SondeFrame send_rtu(Sonde sonde, const uint8_t *frame, size_t n, size_t reply_len) {
    return send_frame(sonde, frame, n, reply_len, false, SONDE_PORT_SERIAL);
}

/* Sends a body as a frame and holds the reply to the expected body; the bytes past it stay. */
static Sonde ask(Sonde sonde, const uint8_t *body, size_t n, const uint8_t *expected, size_t m, const char *what) {
    uint8_t frame[256], answer[256];
    memcpy(frame, body, n);
    memcpy(answer, expected, m);
    size_t due = sealed(answer, m);
    SondeFrame f = send_rtu(sonde, frame, sealed(frame, n), SONDE_REPLY_BYTES);
    check(f.number == SONDE_OK && f.length == due && memcmp(reply, answer, due) == 0 && rest_stays(due), what);
    return f.sonde;
}

#define BYTES(...) (const uint8_t[]){__VA_ARGS__}, sizeof((const uint8_t[]){__VA_ARGS__})

static void in_rtu(void) {
    check(sonde_fresh(0).number == SONDE_BAD_ADDRESS, "fresh at address 0: number 1");
    SondeMade made = sonde_fresh(17);
    check(made.number == SONDE_OK && made.sonde.address == 17, "fresh at address 17");
    made = sonde_begin(made.sonde, volume, 87);
    check(made.number == SONDE_SHORT_VOLUME && made.sonde.address == 17, "begin with 87 words: number 2, and the sonde comes back");
    made = sonde_begin(made.sonde, volume, WORDS);
    check(made.number == SONDE_OK && volume[0] == 1 && volume[1] == 3 && volume[2] == 0, "begin with 136 words");
    Sonde s = made.sonde;

    /* Sensor 2: mode on, method 2, the points (8, 9) and (0, 0), update. Slope 1.125 (0x3F900000), offset 0. */
    s = ask(s, BYTES(17, 6, 0, 205, 0xE0, 0x00), BYTES(17, 6, 0, 205, 0xE0, 0x00), "mode on");
    s = ask(s, BYTES(17, 6, 0, 206, 0, 2), BYTES(17, 6, 0, 206, 0, 2), "method: two points");
    s = ask(s, BYTES(17, 16, 0, 216, 0, 2, 4, 0x41, 0, 0, 0), BYTES(17, 16, 0, 216, 0, 2), "x1 = 8");
    s = ask(s, BYTES(17, 16, 0, 218, 0, 2, 4, 0x41, 0x10, 0, 0), BYTES(17, 16, 0, 218, 0, 2), "y1 = 9");
    s = ask(s, BYTES(17, 6, 0, 205, 0xE0, 0x01), BYTES(17, 6, 0, 205, 0xE0, 0x01), "update");
    s = ask(s, BYTES(17, 6, 0, 205, 0xE0, 0x02), BYTES(17, 6, 0, 205, 0xE0, 0x02), "mode off");
    s = ask(s, BYTES(17, 3, 0, 201, 0, 2), BYTES(17, 3, 4, 0x12, 0x34, 0x56, 0x78), "last calibration is the clock");
    s = ask(s, BYTES(17, 3, 0, 210, 0, 4), BYTES(17, 3, 8, 0, 0, 0, 0, 0x3F, 0x90, 0, 0), "offset 0 and slope 1.125");
    s = ask(s, BYTES(17, 3, 0, 4, 0, 5), BYTES(17, 3, 10, 0, 8, 0, 0, 0, 0, 0, 3, 0, 1), "8 good messages, capacity 3, 1 entry in use");

    /* A raw of 4 is 4.5 on the wire. */
    check(sonde_measure(s, 5, true, 4.0f, 0.0f).number == SONDE_NO_SENSOR, "measure of sensor 5: number 5");
    check(sonde_measure(s, 2, true, 1.0f / 0.0f, 0.0f).number == SONDE_NOT_FINITE, "measure of infinity: number 6");
    made = sonde_measure(s, 2, true, 4.0f, 0.0f);
    check(made.number == SONDE_OK, "measure of 4");
    s = ask(made.sonde, BYTES(17, 3, 0, 230, 0, 2), BYTES(17, 3, 4, 0x40, 0x90, 0, 0), "oxygen reads 4.5");

    /* Numbers of the frame call, a bad frame, and a counter that has stopped. */
    SondeFrame f = send_rtu(s, BYTES(17, 3, 0, 0, 0, 1), SONDE_REPLY_BYTES - 1);
    check(f.number == SONDE_SHORT_REPLY && f.length == 0 && f.sonde.counters.bad == 0 && rest_stays(0), "reply buffer of 255 bytes: number 3, nothing counted");
    s.counters.bad = 65535;
    f = send_rtu(s, BYTES(17, 3, 0, 0, 0, 1), SONDE_REPLY_BYTES);
    check(f.number == SONDE_OK && f.length == 0 && f.sonde.counters.bad == 65535 && rest_stays(0), "bad frame: no reply, and the counter stops");
    s.counters.good = 65535;
    s = ask(s, BYTES(17, 0x44, 1), BYTES(17, 0xC4, 1), "another function: code 1");
    check(s.counters.good == 65535 && s.counters.exceptions == 1, "the good counter stops, the exception counts");

    SondeAudit audit = sonde_audit(s, volume, WORDS);
    check(audit.number == SONDE_OK && audit.entries == 1, "audit: 0 and 1 entry");

    /* A power cut: another address, the same calibration. */
    made = sonde_power_up(18, volume, WORDS);
    check(made.number == SONDE_OK, "power-up at address 18");
    s = made.sonde;
    check(memcmp(&s.sensors[1].setup.active.calibration, &(SondeCalibration){0.0f, 1.125f, 0.0f, 0x12345678}, sizeof(SondeCalibration)) == 0,
          "the calibration is replayed, bit for bit");
    s = ask(s, BYTES(18, 3, 0, 210, 0, 4), BYTES(18, 3, 8, 0, 0, 0, 0, 0x3F, 0x90, 0, 0), "offset 0 and slope 1.125 again");
    s = ask(s, BYTES(18, 3, 0, 205, 0, 1), BYTES(18, 3, 2, 0, 0), "mode is off");
    audit = sonde_audit(s, volume, WORDS);
    check(audit.number == SONDE_OK && audit.entries == 1, "audit: 0 and 1 entry");

    /* One word of the journal changed: nothing is served from it. */
    volume[64 + 6] ^= 1;
    check(sonde_audit(s, volume, WORDS).number == SONDE_INVALID, "audit of a changed entry: number 4");
    check(sonde_power_up(18, volume, WORDS).number == SONDE_INVALID, "power-up from a changed entry: number 4");
    volume[64 + 6] ^= 1;
    s.sensors[1].setup.active.calibration.time ^= 1;
    check(sonde_audit(s, volume, WORDS).number == SONDE_INVALID, "audit of another last calibration: number 4");
}

/* A fresh sonde of address 17, and a journal without entries in these words. */
static Sonde begun(uint16_t *words) {
    SondeMade made = sonde_begin(sonde_fresh(17).sonde, words, WORDS);
    check(made.number == SONDE_OK, "begin again");
    return made.sonde;
}

static SondeFrame send_ascii(Sonde sonde, const void *frame, size_t n, size_t reply_len) {
    return send_frame(sonde, frame, n, reply_len, true, SONDE_PORT_SERIAL);
}

/* Sends n characters and holds the reply to the expected ones, "" for none; the bytes past it stay. */
static Sonde spell(Sonde sonde, const void *frame, size_t n, const char *expected, const char *what) {
    size_t due = strlen(expected);
    SondeFrame f = send_ascii(sonde, frame, n, sizeof reply);
    check(f.number == SONDE_OK && f.length == due && memcmp(reply, expected, due) == 0 && rest_stays(due), what);
    return f.sonde;
}

#define TEXT(characters) characters, sizeof(characters) - 1

/* A body as an ASCII frame; its length. */
static size_t spelt(char *frame, const uint8_t *body, size_t n) {
    uint8_t sum = 0;
    size_t at = 1;
    frame[0] = ':';
    for (size_t i = 0; i < n; i++, at += 2) {
        sum += body[i];
        sprintf(frame + at, "%02X", body[i]);
    }
    return at + (size_t)sprintf(frame + at, "%02X\r\n", (uint8_t)-sum);
}

/* The calibration again, in characters whose LRC is worked out by hand. */
static void in_ascii(void) {
    Sonde s = begun(volume);
    s = spell(s, TEXT(":110600CDE0003C\r\n"), ":110600CDE0003C\r\n", "ASCII: mode on");
    s = spell(s, TEXT(":110600CE000219\r\n"), ":110600CE000219\r\n", "ASCII: method: two points");
    s = spell(s, TEXT(":111000D800020441000000C0\r\n"), ":111000D8000205\r\n", "ASCII: x1 = 8");
    s = spell(s, TEXT(":111000DA00020441100000AE\r\n"), ":111000DA000203\r\n", "ASCII: y1 = 9");
    s = spell(s, TEXT(":110600CDE0013B\r\n"), ":110600CDE0013B\r\n", "ASCII: update");
    s = spell(s, TEXT(":110600CDE0023A\r\n"), ":110600CDE0023A\r\n", "ASCII: mode off");
    s = spell(s, TEXT(":110300C9000221\r\n"), ":11030412345678D4\r\n", "ASCII: last calibration is the clock");
    s = spell(s, TEXT(":110300D2000416\r\n"), ":110308000000003F90000015\r\n", "ASCII: offset 0 and slope 1.125");
    s = spell(s, TEXT(":110325000001C6\r\n"), ":1183026A\r\n", "ASCII: absent register: code 2");
    s = spell(s, TEXT(":000600CDE0004D\r\n"), "", "ASCII: a write at address 0 gets no reply");
    s = spell(s, TEXT(":120325000001C5\r\n"), "", "ASCII: another's frame gets no reply");
    check(s.counters.good == 10 && s.counters.bad == 0 && s.counters.exceptions == 1, "ASCII: 10 good messages, 1 exception");
    SondeAudit audit = sonde_audit(s, volume, WORDS);
    check(audit.number == SONDE_OK && audit.entries == 1, "ASCII: audit: 0 and 1 entry");

    s = spell(s, TEXT(":110325000001c6\r\n"), "", "ASCII: a small letter is bad");
    s = spell(s, TEXT(":1103250000013A\r\n"), "", "ASCII: a sum that isn't complemented is bad");
    s = spell(s, TEXT("110325000001C6\r\n"), "", "ASCII: no colon is bad");
    s = spell(s, TEXT(":110325000001C6\n"), "", "ASCII: no CR is bad");
    s = spell(s, TEXT(":110325000001C6\r\n\r\n"), "", "ASCII: bytes behind LF are bad");
    s = spell(s, TEXT(":11EF\r\n"), "", "ASCII: one byte with its LRC is bad");
    s = spell(s, TEXT(":\r\n"), "", "ASCII: no digits are bad");
    s = spell(s, BYTES(17, 3, 0, 0, 0, 1, 0x86, 0x9A), "", "ASCII: an RTU frame is bad");
    check(s.counters.good == 10 && s.counters.bad == 8, "ASCII: 8 bad messages");

    char longest[600];
    uint8_t body[255] = {17, 0x44};
    check(spelt(longest, body, 254) == 513, "ASCII: the longest frame has 513 characters");
    s = spell(s, longest, 513, ":11C4012A\r\n", "ASCII: the longest frame: code 1");
    check(spelt(longest, body, 255) == 515, "ASCII: a longer frame has 515");
    s = spell(s, longest, 515, "", "ASCII: a longer frame is bad");
    check(s.counters.good == 11 && s.counters.bad == 9, "ASCII: 11 good and 9 bad messages");

    /* The framing decides on the reply buffer, before any look at the frame. */
    static const size_t lengths[] = {0, 255, SONDE_REPLY_BYTES, 511, SONDE_ASCII_REPLY_BYTES - 1};
    for (size_t i = 0; i < sizeof lengths / sizeof *lengths; i++) {
        SondeFrame good = send_ascii(s, TEXT(":110325000001C6\r\n"), lengths[i]);
        check(good.number == SONDE_SHORT_REPLY && good.length == 0 && good.sonde.counters.good == 11 && rest_stays(0),
              "ASCII: reply buffer of up to 512 bytes: number 3, nothing counted");
        SondeFrame bad = send_ascii(s, TEXT(":"), lengths[i]);
        check(bad.number == SONDE_SHORT_REPLY && bad.length == 0 && bad.sonde.counters.bad == 9 && rest_stays(0),
              "ASCII: the same with a bad frame");
    }
}

#define SAME(field) (memcmp(&a->field, &b->field, sizeof a->field) == 0)

/* Field by field: the bytes between fields are anything. */
static bool same_sensor(const SondeSensor *a, const SondeSensor *b) {
    return SAME(setup.procedure.calibrating) && SAME(setup.procedure.trial) && SAME(setup.procedure.method) && SAME(setup.procedure.points) &&
           SAME(setup.active) && SAME(setup.parameters.level) && SAME(setup.parameters.parameter1.units) &&
           SAME(setup.parameters.parameter1.sentinel) && SAME(setup.parameters.parameter2.units) && SAME(setup.parameters.parameter2.sentinel) &&
           SAME(setup.parameters.parameter3.units) && SAME(setup.parameters.parameter3.sentinel) && SAME(sample.present) && SAME(sample.raw1) &&
           SAME(sample.raw2);
}

static bool same_sonde(const Sonde *a, const Sonde *b) {
    bool same = SAME(address) && SAME(technician) && SAME(counters);
    for (int i = 0; i < 4; i++) same = same && same_sensor(&a->sensors[i], &b->sensors[i]);
    return same;
}

/* Two calibrations of sensor 2 by technician 0x1267, an update that fails, and reads and other frames. */
static const struct { uint8_t length, bytes[13]; } bodies[] = {
    {6, {17, 6, 0, 205, 0xE0, 0x00}},
    {6, {17, 6, 0, 206, 0, 2}},
    {9, {17, 16, 0, 9, 0, 1, 2, 0x12, 0x67}},
    {11, {17, 16, 0, 216, 0, 2, 4, 0x41, 0, 0, 0}},
    {6, {17, 6, 0, 205, 0xE0, 0x01}}, /* y1 = 0 makes a slope of 0: out of limits */
    {11, {17, 16, 0, 218, 0, 2, 4, 0x41, 0x10, 0, 0}},
    {8, {17, 22, 0, 205, 0, 0, 0xE0, 0x01}},
    {6, {0, 6, 0, 205, 0xE0, 0x01}},
    {6, {17, 3, 0, 130, 0, 24}},
    {6, {0, 3, 0, 130, 0, 24}},
    {6, {18, 3, 0, 130, 0, 24}},
    {6, {17, 3, 0x25, 0, 0, 1}},
    {2, {17, 3}},
    {3, {17, 0x44, 1}},
};
#define BODIES (sizeof bodies / sizeof *bodies)

/* One body in either framing, to sondes and volumes that are the same, leaves them the same, and its replies say the same. */
static void in_both_framings(void) {
    static uint16_t other[WORDS];
    memset(volume, 0, sizeof volume);
    Sonde rtu = begun(volume), ascii = begun(other);
    for (size_t i = 0; i < BODIES; i++) {
        uint8_t frame[16], answer[SONDE_REPLY_BYTES];
        char characters[64], due[600] = "";
        size_t n = bodies[i].length, spelt_n = spelt(characters, bodies[i].bytes, n), due_n = 0;
        memcpy(frame, bodies[i].bytes, n);
        SondeFrame r = sonde_frame(rtu, frame, sealed(frame, n), answer, sizeof answer, volume, WORDS, 1000, false, SONDE_PORT_SERIAL);
        if (r.length > 0) due_n = spelt(due, answer, r.length - 2u);
        SondeFrame a =
            sonde_frame(ascii, (const uint8_t *)characters, spelt_n, reply, sizeof reply, other, WORDS, 1000, true, SONDE_PORT_SERIAL);
        rtu = r.sonde;
        ascii = a.sonde;
        check(r.number == SONDE_OK && a.number == SONDE_OK, "both framings: number 0");
        check(a.length == due_n && memcmp(reply, due, due_n) == 0 && (r.length == 0 || a.length == 2 * r.length + 1), "both framings: one reply");
        check(same_sonde(&rtu, &ascii) && memcmp(volume, other, sizeof volume) == 0, "both framings: one sonde and one volume");
    }
    check(sonde_audit(ascii, other, WORDS).entries == 2, "both framings: 2 entries");
    check(volume[64 + 3] == 0x1267 && volume[88 + 3] == 0x1267, "both framings: technician 0x1267 in both entries");
}

/* ---- over the radio */

/* The same bodies over the serial line, over the radio, and over one after the other, each to its own sonde and volume, leave and answer the same. */
static void on_both_ports(void) {
    static struct { uint8_t ports[2]; Sonde sonde; uint16_t words[WORDS]; uint8_t reply[SONDE_REPLY_BYTES]; } sides[] = {
        {.ports = {SONDE_PORT_SERIAL, SONDE_PORT_SERIAL}},
        {.ports = {SONDE_PORT_RADIO, SONDE_PORT_RADIO}},
        {.ports = {SONDE_PORT_SERIAL, SONDE_PORT_RADIO}},
    };
    for (size_t k = 0; k < 3; k++) sides[k].sonde = begun(sides[k].words);
    for (size_t i = 0; i < BODIES; i++) {
        uint8_t frame[16];
        uint16_t lengths[3];
        memcpy(frame, bodies[i].bytes, bodies[i].length);
        size_t n = sealed(frame, bodies[i].length);
        for (size_t k = 0; k < 3; k++) {
            uint8_t port = sides[k].ports[i % 2];
            SondeFrame f = sonde_frame(sides[k].sonde, frame, n, sides[k].reply, SONDE_REPLY_BYTES, sides[k].words, WORDS, 1000, false, port);
            check(f.number == SONDE_OK && f.length <= 64, "both ports: number 0, and a reply of at most 64 bytes");
            sides[k].sonde = f.sonde;
            lengths[k] = f.length;
        }
        for (size_t k = 1; k < 3; k++) {
            check(lengths[k] == lengths[0] && memcmp(sides[k].reply, sides[0].reply, lengths[0]) == 0, "both ports: one reply");
            check(same_sonde(&sides[k].sonde, &sides[0].sonde), "both ports: one sonde, and its counters");
            check(memcmp(sides[k].words, sides[0].words, sizeof sides[0].words) == 0, "both ports: one volume");
        }
    }
    check(sonde_audit(sides[1].sonde, sides[1].words, WORDS).entries == 2, "both ports: 2 entries");
    check(sides[1].words[64 + 3] == 0x1267, "both ports: technician 0x1267 in an entry that came over the radio");
}

/* What comes of a frame: the code of an exception, or one of these. */
enum { BAD = -4, UNCOUNTED, UNANSWERED, ANSWERED, WRONG = 1000 };

/* By the counters and the reply. The reply's checksum is right, and the bytes past it stay. */
static int outcome(const Sonde *before, const SondeFrame *f) {
    const SondeCounters *was = &before->counters, *is = &f->sonde.counters;
    int good = is->good - was->good, bad = is->bad - was->bad, exceptions = is->exceptions - was->exceptions;
    if (f->number != SONDE_OK || good + bad > 1 || exceptions > good || !rest_stays(f->length)) return WRONG;
    if (f->length == 0) return exceptions > 0 ? WRONG : bad ? BAD : good ? UNANSWERED : UNCOUNTED;
    if (!good || crc(reply, f->length) != 0 || exceptions != reply[1] >> 7) return WRONG;
    return exceptions ? reply[2] : ANSWERED;
}

/* The outcome of an RTU frame on a port. But for the counters the sonde stays, and so does the volume; over the radio a reply has at most 64 bytes. */
static int outcome_on(uint8_t port, const Sonde *sonde, const uint8_t *frame, size_t n) {
    static uint16_t before[WORDS];
    memcpy(before, volume, sizeof before);
    SondeFrame f = send_frame(*sonde, frame, n, SONDE_REPLY_BYTES, false, port);
    int found = outcome(sonde, &f);
    f.sonde.counters = sonde->counters;
    bool kept = same_sonde(&f.sonde, sonde) && memcmp(volume, before, sizeof before) == 0;
    return kept && (port == SONDE_PORT_SERIAL || f.length <= 64) ? found : WRONG;
}

/* Frames by their first bytes, with zeros behind them and a right checksum. Registers 130 to 153 are in the map, and 154 to 199 are not. */
static const struct { const char *what; size_t length; uint8_t bytes[8]; int serial, radio; } frames[] = {
    {"ports: 3 bytes", 3, {17}, BAD, BAD},
    {"ports: 4 bytes", 4, {17, 3}, 3, 3},
    {"ports: 64 bytes of another function", 64, {17, 0x44}, 1, 1},
    {"ports: 65 bytes of another function", 65, {17, 0x44}, 1, BAD},
    {"ports: 256 bytes of another function", 256, {17, 0x44}, 1, BAD},
    {"ports: 257 bytes of another function", 257, {17, 0x44}, BAD, BAD},
    {"ports: a write to 27 registers, 63 bytes", 63, {17, 16, 0, 130, 0, 27, 54}, 2, 2},
    {"ports: a write to 28 registers, 65 bytes", 65, {17, 16, 0, 130, 0, 28, 56}, 2, BAD},
    {"ports: a write to 28 registers that lacks a byte", 64, {17, 16, 0, 130, 0, 28, 56}, 3, 3},
    {"ports: a write to 123 registers, 255 bytes", 255, {17, 16, 0, 130, 0, 123, 246}, 2, BAD},
    {"ports: a write to 124 registers, 257 bytes", 257, {17, 16, 0, 130, 0, 124, 248}, BAD, BAD},
    {"ports: another's 64 bytes", 64, {18, 3}, UNCOUNTED, UNCOUNTED},
    {"ports: another's 65 bytes", 65, {18, 3}, UNCOUNTED, BAD},
    {"ports: 64 bytes of function 3 at address 0", 64, {0, 3}, UNANSWERED, UNANSWERED},
    {"ports: 65 bytes of function 3 at address 0", 65, {0, 3}, UNANSWERED, BAD},
    {"ports: a read of 24 registers", 8, {17, 3, 0, 130, 0, 24}, ANSWERED, ANSWERED},
    {"ports: a read of 29 registers, 5 of them absent", 8, {17, 3, 0, 130, 0, 29}, 2, 2},
    {"ports: a read of 30 registers, 6 of them absent", 8, {17, 3, 0, 130, 0, 30}, 2, 3},
    {"ports: a read of 29 absent registers", 8, {17, 3, 0x25, 0, 0, 29}, 2, 2},
    {"ports: a read of 30 absent registers", 8, {17, 3, 0x25, 0, 0, 30}, 2, 3},
    {"ports: a read of 125 absent registers", 8, {17, 3, 0x25, 0, 0, 125}, 2, 3},
    {"ports: a read of 126 absent registers", 8, {17, 3, 0x25, 0, 0, 126}, 3, 3},
    {"ports: a read of 0x1D1D registers", 8, {17, 3, 0, 130, 0x1D, 0x1D}, 3, 3},
    {"ports: a read of no registers", 8, {17, 3, 0, 130, 0, 0}, 3, 3},
    {"ports: a read of 29 registers past 0xFFFF", 8, {17, 3, 0xFF, 0xFF, 0, 29}, 2, 2},
    {"ports: a read of 30 registers past 0xFFFF", 8, {17, 3, 0xFF, 0xFF, 0, 30}, 2, 3},
    {"ports: a read of 29 registers at address 0", 8, {0, 3, 0, 0, 0, 29}, UNANSWERED, UNANSWERED},
    {"ports: a read of 30 registers at address 0", 8, {0, 3, 0, 0, 0, 30}, UNANSWERED, UNANSWERED},
    {"ports: a read of 126 registers at address 0", 8, {0, 3, 0, 0, 0, 126}, UNANSWERED, UNANSWERED},
    {"ports: another's read of 30 registers", 8, {18, 3, 0, 0, 0, 30}, UNCOUNTED, UNCOUNTED},
};

static void within_ports(void) {
    Sonde s = begun(volume);
    for (size_t i = 0; i < sizeof frames / sizeof *frames; i++) {
        uint8_t frame[257] = {0};
        memcpy(frame, frames[i].bytes, frames[i].length < 8 ? frames[i].length : 8);
        sealed(frame, frames[i].length - 2);
        check(outcome_on(SONDE_PORT_SERIAL, &s, frame, frames[i].length) == frames[i].serial, frames[i].what);
        check(outcome_on(SONDE_PORT_RADIO, &s, frame, frames[i].length) == frames[i].radio, frames[i].what);
    }
}

/* Every read around the map: up to 29 registers the radio answers as the serial line does, and beyond them by code 3. */
static void reads_on_both_ports(void) {
    Sonde s = begun(volume);
    bool same = true, refused = true;
    size_t longest = 0;
    for (uint16_t at = 0; at < 500; at++)
        for (uint16_t count = 0; count < 40; count++) {
            uint8_t frame[8] = {17, 3, (uint8_t)(at >> 8), at & 0xFF, 0, (uint8_t)count}, answer[SONDE_REPLY_BYTES];
            sealed(frame, 6);
            int serial = outcome_on(SONDE_PORT_SERIAL, &s, frame, sizeof frame);
            memcpy(answer, reply, sizeof answer);
            int radio = outcome_on(SONDE_PORT_RADIO, &s, frame, sizeof frame);
            if (count < 30) same = same && radio == serial && radio != WRONG && memcmp(reply, answer, sizeof answer) == 0;
            else refused = refused && radio == 3 && serial == 2;
            if (radio == ANSWERED && count > longest) longest = count;
        }
    check(same, "ports: every read of up to 29 registers has one reply");
    check(refused, "ports: every longer read is code 3 over the radio, before code 2");
    check(longest == 24, "ports: the longest read that is answered has 24 registers");
}

/* An ASCII frame on the radio is bad whatever it holds. Its framing decides on the reply buffer all the same. */
static void ascii_on_radio(void) {
    static const struct { const char *what, *frame; } bad[] = {
        {"radio: mode on in ASCII is bad", ":110600CDE0003C\r\n"},
        {"radio: mode on in ASCII at address 0 is bad", ":000600CDE0004D\r\n"},
        {"radio: another's ASCII frame is bad", ":120325000001C5\r\n"},
        {"radio: a read in ASCII is bad", ":110325000001C6\r\n"},
        {"radio: an ASCII frame with another LRC is bad", ":110325000001C7\r\n"},
        {"radio: an RTU frame as ASCII is bad", "\x11\x03\x25\x01\x02\x03\x04"},
    };
    static const size_t lengths[] = {0, 255, SONDE_REPLY_BYTES, 511, SONDE_ASCII_REPLY_BYTES - 1};
    Sonde s = begun(volume);
    for (size_t i = 0; i < sizeof bad / sizeof *bad; i++) {
        size_t n = strlen(bad[i].frame);
        Sonde due = s;
        due.counters.bad++;
        SondeFrame f = send_frame(s, bad[i].frame, n, SONDE_ASCII_REPLY_BYTES, true, SONDE_PORT_RADIO);
        check(f.number == SONDE_OK && f.length == 0 && rest_stays(0) && same_sonde(&f.sonde, &due), bad[i].what);
        for (size_t k = 0; k < sizeof lengths / sizeof *lengths; k++) {
            f = send_frame(s, bad[i].frame, n, lengths[k], true, SONDE_PORT_RADIO);
            check(f.number == SONDE_SHORT_REPLY && f.length == 0 && rest_stays(0) && same_sonde(&f.sonde, &s),
                  "radio: ASCII with a reply buffer of up to 512 bytes: number 3, nothing counted");
        }
        s = due;
    }
    spell(s, bad[0].frame, strlen(bad[0].frame), bad[0].frame, "radio: over the serial line the first of these is carried out");
}

/* What one port counts the other shows. */
static void counted_together(void) {
    Sonde s = begun(volume);
    s = send_frame(s, BYTES(17, 3, 0, 0, 0, 1), SONDE_REPLY_BYTES, false, SONDE_PORT_RADIO).sonde;
    s = ask(s, BYTES(17, 0x44, 1), BYTES(17, 0xC4, 1), "ports: a frame over the serial line, behind a bad one over the radio");
    uint8_t read[8] = {17, 3, 0, 4, 0, 3};
    size_t n = sealed(read, 6);
    SondeFrame f = send_frame(s, read, n, SONDE_REPLY_BYTES, false, SONDE_PORT_RADIO);
    check(f.length == 11 && memcmp(reply, "\x11\x03\x06\x00\x01\x00\x01\x00\x01", 9) == 0,
          "ports: 1 good message, 1 bad one and 1 exception are shown over the radio");
    ask(f.sonde, BYTES(17, 3, 0, 4, 0, 3), BYTES(17, 3, 6, 0, 2, 0, 1, 0, 1), "ports: and with that read over the serial line");
}

/* A port that there isn't: number 9, before the reply buffer, the sonde and the volume are looked at. */
static void no_port(void) {
    static uint16_t before[WORDS];
    static const uint8_t ports[] = {0, 3, 255};
    static const struct { const char *what; size_t reply_len; bool ascii; uint16_t word3; uint8_t otherwise; } calls[] = {
        {"no port: number 9", SONDE_REPLY_BYTES, false, 0, SONDE_OK},
        {"no port: number 9 with a longer buffer", SONDE_ASCII_REPLY_BYTES, true, 0, SONDE_OK},
        {"no port: number 9 before number 3", SONDE_REPLY_BYTES - 1, false, 0, SONDE_SHORT_REPLY},
        {"no port: number 9 before number 3 in ASCII", SONDE_ASCII_REPLY_BYTES - 1, true, 0, SONDE_SHORT_REPLY},
        {"no port: number 9 before number 4", SONDE_REPLY_BYTES, false, 1, SONDE_INVALID},
        {"no port: number 9 before numbers 3 and 4", 0, false, 1, SONDE_SHORT_REPLY},
    };
    Sonde s = begun(volume);
    uint8_t frame[8] = {17, 6, 0, 205, 0xE0, 0x00}; /* mode on */
    size_t n = sealed(frame, 6);
    for (size_t i = 0; i < sizeof calls / sizeof *calls; i++) {
        volume[3] = calls[i].word3;
        memcpy(before, volume, sizeof before);
        for (size_t k = 0; k < sizeof ports; k++) {
            SondeFrame f = send_frame(s, frame, n, calls[i].reply_len, calls[i].ascii, ports[k]);
            bool kept = rest_stays(0) && same_sonde(&f.sonde, &s) && memcmp(volume, before, sizeof before) == 0;
            check(f.number == SONDE_NO_PORT && f.length == 0 && kept, calls[i].what);
        }
        for (uint8_t port = SONDE_PORT_SERIAL; port <= SONDE_PORT_RADIO; port++)
            check(send_frame(s, frame, n, calls[i].reply_len, calls[i].ascii, port).number == calls[i].otherwise,
                  "no port: on either port the call has its own number");
    }
}

/* The slope 1.25 of the points (8, 10) and (0, 0) is outside the limits: it is shown, and nothing else changes. With y1 = 9 it is accepted. */
static void failed_update(void) {
    static uint16_t before[WORDS];
    Sonde s = begun(volume);
    s = ask(s, BYTES(17, 6, 0, 205, 0xE0, 0x00), BYTES(17, 6, 0, 205, 0xE0, 0x00), "failed update: mode on");
    s = ask(s, BYTES(17, 6, 0, 206, 0, 2), BYTES(17, 6, 0, 206, 0, 2), "failed update: method: two points");
    s = ask(s, BYTES(17, 16, 0, 216, 0, 2, 4, 0x41, 0, 0, 0), BYTES(17, 16, 0, 216, 0, 2), "failed update: x1 = 8");
    s = ask(s, BYTES(17, 16, 0, 218, 0, 2, 4, 0x41, 0x20, 0, 0), BYTES(17, 16, 0, 218, 0, 2), "failed update: y1 = 10");
    s.sensors[1].setup.procedure.trial.coefficient3 = -0.0f;
    Sonde due = s;
    due.sensors[1].setup.procedure.trial = (SondeCoefficients){0.0f, 1.25f, 0.0f};
    due.counters.good++;
    due.counters.exceptions++;
    memcpy(before, volume, sizeof before);
    s = ask(s, BYTES(17, 6, 0, 205, 0xE0, 0x01), BYTES(17, 0x86, 0x97), "failed update: code 0x97");
    check(same_sonde(&s, &due) && memcmp(volume, before, sizeof before) == 0, "failed update: the candidate is the trial, and nothing else changes");
    s = ask(s, BYTES(17, 3, 0, 210, 0, 4), BYTES(17, 3, 8, 0, 0, 0, 0, 0x3F, 0xA0, 0, 0), "failed update: offset 0 and slope 1.25 are shown");

    /* Equal points have no candidate: it stays. */
    s = ask(s, BYTES(17, 16, 0, 220, 0, 2, 4, 0x41, 0, 0, 0), BYTES(17, 16, 0, 220, 0, 2), "failed update: x2 = 8");
    due = s;
    due.counters.good++;
    due.counters.exceptions++;
    s = ask(s, BYTES(17, 6, 0, 205, 0xE0, 0x01), BYTES(17, 0x86, 0x97), "failed update: code 0x97 for equal points");
    check(same_sonde(&s, &due) && memcmp(volume, before, sizeof before) == 0, "failed update: equal points change nothing");

    s = ask(s, BYTES(17, 16, 0, 220, 0, 2, 4, 0, 0, 0, 0), BYTES(17, 16, 0, 220, 0, 2), "failed update: x2 = 0");
    s = ask(s, BYTES(17, 16, 0, 218, 0, 2, 4, 0x41, 0x10, 0, 0), BYTES(17, 16, 0, 218, 0, 2), "failed update: y1 = 9");
    s = ask(s, BYTES(17, 6, 0, 205, 0xE0, 0x01), BYTES(17, 6, 0, 205, 0xE0, 0x01), "failed update: corrected and accepted");
    s = ask(s, BYTES(17, 3, 0, 210, 0, 4), BYTES(17, 3, 8, 0, 0, 0, 0, 0x3F, 0x90, 0, 0), "failed update: slope 1.125");
    check(sonde_audit(s, volume, WORDS).entries == 1, "failed update: 1 entry");
}

/* Sends a body to address 0, which gets no reply. */
static Sonde tell(Sonde sonde, const uint8_t *body, size_t n, const char *what) {
    uint8_t frame[256];
    memcpy(frame, body, n);
    SondeFrame f = send_rtu(sonde, frame, sealed(frame, n), SONDE_REPLY_BYTES);
    check(f.number == SONDE_OK && f.length == 0 && rest_stays(0), what);
    return f.sonde;
}

/* The ways to register 9, and what isn't one. */
static Sonde gives_number(Sonde s) {
    s = ask(s, BYTES(17, 3, 0, 9, 0, 1), BYTES(17, 3, 2, 0, 0), "technician: not given on a fresh sonde");
    s = ask(s, BYTES(17, 6, 0, 9, 0xFF, 0xFF), BYTES(17, 6, 0, 9, 0xFF, 0xFF), "technician: 65535 by function 6");
    s = ask(s, BYTES(17, 16, 0, 9, 0, 1, 2, 0x12, 0x67), BYTES(17, 16, 0, 9, 0, 1), "technician: 0x1267 by function 16");
    s = ask(s, BYTES(17, 22, 0, 9, 0x00, 0xFF, 0x34, 0x12), BYTES(17, 22, 0, 9, 0x00, 0xFF, 0x34, 0x12), "technician: 0x3467 by a mask");
    s = ask(s, BYTES(17, 3, 0, 7, 0, 3), BYTES(17, 3, 6, 0, 3, 0, 0, 0x34, 0x67), "technician: read behind capacity and entries in use");
    s = tell(s, BYTES(0, 6, 0, 9, 0, 7), "technician: 7 at address 0");
    check(s.technician == 7, "technician: 7 in the sonde");

    Sonde due = s;
    due.counters.good += 5;
    due.counters.exceptions += 5;
    s = ask(s, BYTES(17, 16, 0, 8, 0, 2, 4, 0, 1, 0, 1), BYTES(17, 0x90, 0x80), "technician: with the entries in use: code 0x80");
    s = ask(s, BYTES(17, 16, 0, 9, 0, 2, 4, 0, 1, 0, 1), BYTES(17, 0x90, 2), "technician: with register 10: code 2");
    s = ask(s, BYTES(17, 6, 0, 8, 0, 1), BYTES(17, 0x86, 0xC2), "technician: the entries in use alone: code 0xC2");
    s = ask(s, BYTES(17, 6, 0, 10, 0, 1), BYTES(17, 0x86, 2), "technician: register 10: code 2");
    s = ask(s, BYTES(17, 3, 0, 9, 0, 2), BYTES(17, 0x83, 2), "technician: a read with register 10: code 2");
    check(same_sonde(&s, &due), "technician: refused frames change the counters alone");
    return s;
}

/* An entry carries the number that stands at its update, whatever stood at 0xE000. */
static void technicians(void) {
    static uint16_t other[WORDS];
    Sonde s = gives_number(begun(volume));
    s = ask(s, BYTES(17, 6, 0, 105, 0xE0, 0x00), BYTES(17, 6, 0, 105, 0xE0, 0x00), "technician: mode on, sensor 1");
    s = ask(s, BYTES(17, 6, 0, 9, 0, 8), BYTES(17, 6, 0, 9, 0, 8), "technician: 8 before the update");
    s = ask(s, BYTES(17, 6, 0, 105, 0xE0, 0x01), BYTES(17, 6, 0, 105, 0xE0, 0x01), "technician: update");
    check(volume[64 + 3] == 8, "technician: entry 1 names 8");
    s = ask(s, BYTES(17, 6, 0, 9, 0xFF, 0xFF), BYTES(17, 6, 0, 9, 0xFF, 0xFF), "technician: 65535");
    s = tell(s, BYTES(0, 6, 0, 105, 0xE0, 0x01), "technician: update at address 0");
    check(volume[64 + 3] == 8 && volume[88 + 3] == 0xFFFF, "technician: entry 2 names 65535, entry 1 still 8");

    /* A begin leaves the number, and a power-up makes it 0. */
    SondeMade made = sonde_begin(s, other, WORDS);
    check(made.number == SONDE_OK && made.sonde.technician == 0xFFFF, "technician: begin leaves the number");
    made = sonde_power_up(17, volume, WORDS);
    check(made.number == SONDE_OK && made.sonde.technician == 0, "technician: power-up makes it 0");
    s = ask(made.sonde, BYTES(17, 3, 0, 9, 0, 1), BYTES(17, 3, 2, 0, 0), "technician: 0 in register 9");
    s = ask(s, BYTES(17, 6, 0, 105, 0xE0, 0x00), BYTES(17, 6, 0, 105, 0xE0, 0x00), "technician: mode on again");
    s = ask(s, BYTES(17, 6, 0, 105, 0xE0, 0x01), BYTES(17, 6, 0, 105, 0xE0, 0x01), "technician: update without a number");
    check(volume[112 + 3] == 0, "technician: entry 3 names none");

    /* Number 4 looks at neither. */
    s.technician = 0xA5A5;
    volume[64 + 3] ^= 0xFFFF;
    SondeAudit audit = sonde_audit(s, volume, WORDS);
    check(audit.number == SONDE_OK && audit.entries == 3, "technician: audit with any numbers: 0 and 3 entries");
    check(sonde_power_up(17, volume, WORDS).number == SONDE_OK, "technician: power-up with any number in an entry");
    volume[64 + 20] = 1;
    check(sonde_power_up(17, volume, WORDS).number == SONDE_INVALID, "technician: word 20 of an entry has to be 0: number 4");
}

static uint8_t page[SONDE_PAGE_BYTES(3) + 40];

/* Prints a journal on so many bytes of the page and holds it to these lines, "" for none; the bytes past them stay, and so does the volume. */
static void put_on_paper(const uint16_t *words, size_t bytes, uint8_t number, const char *lines, const char *what) {
    static uint16_t before[WORDS];
    size_t due = strlen(lines);
    memcpy(before, words, sizeof before);
    memset(page, 0xAA, sizeof page);
    SondePrint p = sonde_print(words, WORDS, page, bytes);
    bool stays = memcmp(words, before, sizeof before) == 0;
    for (size_t i = due; i < sizeof page; i++) stays = stays && page[i] == 0xAA;
    check(p.number == number && p.length == due && memcmp(page, lines, due) == 0 && stays, what);
}

/* Three calibrations, at 305419896: sensor 1 by the point (1000, 1250), sensor 3 with offset -0 and the third coefficient -2, and sensor 2 as it is. */
static Sonde calibrated_thrice(void) {
    Sonde s = begun(volume);
    s = ask(s, BYTES(17, 6, 0, 9, 0, 7), BYTES(17, 6, 0, 9, 0, 7), "paper: technician 7");
    s = ask(s, BYTES(17, 6, 0, 105, 0xE0, 0x00), BYTES(17, 6, 0, 105, 0xE0, 0x00), "paper: mode on, sensor 1");
    s = ask(s, BYTES(17, 6, 0, 106, 0, 1), BYTES(17, 6, 0, 106, 0, 1), "paper: method: one point");
    s = ask(s, BYTES(17, 16, 0, 116, 0, 2, 4, 0x44, 0x7A, 0, 0), BYTES(17, 16, 0, 116, 0, 2), "paper: x1 = 1000");
    s = ask(s, BYTES(17, 16, 0, 118, 0, 2, 4, 0x44, 0x9C, 0x40, 0), BYTES(17, 16, 0, 118, 0, 2), "paper: y1 = 1250");
    s = ask(s, BYTES(17, 6, 0, 105, 0xE0, 0x01), BYTES(17, 6, 0, 105, 0xE0, 0x01), "paper: update, sensor 1");
    s = ask(s, BYTES(17, 6, 0, 9, 0xFF, 0xFF), BYTES(17, 6, 0, 9, 0xFF, 0xFF), "paper: technician 65535");
    s = ask(s, BYTES(17, 6, 1, 49, 0xE0, 0x00), BYTES(17, 6, 1, 49, 0xE0, 0x00), "paper: mode on, sensor 3");
    s = ask(s, BYTES(17, 16, 1, 54, 0, 2, 4, 0x80, 0, 0, 0), BYTES(17, 16, 1, 54, 0, 2), "paper: offset -0");
    s = ask(s, BYTES(17, 16, 1, 58, 0, 2, 4, 0xC0, 0, 0, 0), BYTES(17, 16, 1, 58, 0, 2), "paper: third coefficient -2");
    s = ask(s, BYTES(17, 6, 1, 49, 0xE0, 0x01), BYTES(17, 6, 1, 49, 0xE0, 0x01), "paper: update, sensor 3");
    s = ask(s, BYTES(17, 6, 0, 9, 0, 0), BYTES(17, 6, 0, 9, 0, 0), "paper: technician not given");
    s = ask(s, BYTES(17, 6, 0, 205, 0xE0, 0x00), BYTES(17, 6, 0, 205, 0xE0, 0x00), "paper: mode on, sensor 2");
    return ask(s, BYTES(17, 6, 0, 205, 0xE0, 0x01), BYTES(17, 6, 0, 205, 0xE0, 0x01), "paper: update, sensor 2");
}

static void on_paper(void) {
    static uint16_t next[WORDS];
    static const char lines[] = "   0 1 -     0          0 00000000 3F800000 00000000\n"
                                "   0 2 -     0          0 00000000 3F800000 00000000\n"
                                "   0 3 -     0          0 00000000 00000000 00000000\n"
                                "   0 4 -     0          0 00000000 3F800000 00000000\n"
                                "   1 1 1     7  305419896 00000000 3FA00000 00000000\n"
                                "   2 3 0 65535  305419896 80000000 00000000 C0000000\n"
                                "   3 2 0     0  305419896 00000000 3F800000 00000000\n";
    Sonde s = calibrated_thrice();
    check(sizeof lines - 1 == SONDE_PAGE_BYTES(3), "paper: 53 bytes for each of 7 lines");
    put_on_paper(volume, SONDE_PAGE_BYTES(3) - 1, SONDE_SHORT_PAGE, "", "paper: a page that lacks a byte: number 7");
    put_on_paper(volume, 0, SONDE_SHORT_PAGE, "", "paper: an empty page: number 7");
    put_on_paper(volume, sizeof page, SONDE_OK, lines, "paper: a page that is longer");
    put_on_paper(volume, SONDE_PAGE_BYTES(3), SONDE_OK, lines, "paper: a page that is just long enough");
    printf("%.*s", (int)SONDE_PAGE_BYTES(3), (const char *)page);

    /* The next journal opens with what is in force. */
    check(sonde_begin(s, next, WORDS).number == SONDE_OK, "paper: the next journal");
    put_on_paper(next, sizeof page, SONDE_OK,
                 "   0 1 -     0  305419896 00000000 3FA00000 00000000\n"
                 "   0 2 -     0  305419896 00000000 3F800000 00000000\n"
                 "   0 3 -     0  305419896 80000000 00000000 C0000000\n"
                 "   0 4 -     0          0 00000000 3F800000 00000000\n",
                 "paper: a journal without entries");

    volume[88 + 20] = 1;
    put_on_paper(volume, sizeof page, SONDE_INVALID, "", "paper: a changed entry: number 4");
    put_on_paper(volume, 0, SONDE_INVALID, "", "paper: number 4 before number 7");
}

/* The CRC by the library's rounds: the earlier byte is the word's low half, and an odd last byte goes on its own. */
static uint16_t summed(const uint8_t *bytes, size_t n) {
    uint16_t sum = 0xFFFF;
    for (; n > 1; n -= 2, bytes += 2) sum = sonde_crc_round(sum, (uint16_t)(bytes[0] | bytes[1] << 8));
    if (n == 1) sum = sonde_crc_round((uint16_t)((sum ^ bytes[0]) << 8), 0) ^ (sum >> 8);
    return sum;
}

/* The sum after a word's low byte and then its high byte, by bits. */
static uint16_t by_bits(uint16_t sum, uint16_t word) {
    for (int bit = 0; bit < 16; bit++) {
        if (bit == 0) sum ^= word & 0xFF;
        if (bit == 8) sum ^= word >> 8;
        sum = sum & 1 ? (sum >> 1) ^ 0xA001 : sum >> 1;
    }
    return sum;
}

static void in_rounds(void) {
    uint8_t bytes[300];
    check(sonde_crc_round(0xFFFF, 0x3231) == 0xF595, "rounds: \"12\"");
    check(sonde_crc_round(0, 0) == 0 && sonde_crc_round(0x1234, 0x1234) == 0, "rounds: a sum and the same word leave 0");
    check(sonde_crc_round(0xFFFF, 0x3231) != sonde_crc_round(0xFFFF, 0x3132), "rounds: the bytes of a word aren't alike");
    check(summed((const uint8_t *)"123456789", 9) == 0x4B37, "rounds: \"123456789\", four words and the odd byte");
    check(summed((const uint8_t *)"", 0) == 0xFFFF, "rounds: no bytes");

    bool same = true;
    for (uint32_t sum = 0; sum < 0x10000; sum++) {
        uint16_t word = (uint16_t)(sum * 40503 + 7);
        same &= sonde_crc_round((uint16_t)sum, word) == by_bits((uint16_t)sum, word) && sonde_crc_round((uint16_t)sum, 0) == by_bits((uint16_t)sum, 0);
    }
    check(same, "rounds: every sum, with two words each");
    for (size_t i = 0; i < sizeof bytes; i++) bytes[i] = (uint8_t)(i * 37 + i / 7);
    for (size_t n = 0; n <= sizeof bytes; n++) same &= summed(bytes, n) == crc(bytes, n);
    check(same, "rounds: every length up to 300");

    /* A request summed by rounds is answered, and its reply's checksum is theirs too. */
    uint8_t request[8] = {17, 3, 0, 0, 0, 1};
    uint16_t sum = summed(request, 6);
    request[6] = sum & 0xFF;
    request[7] = sum >> 8;
    check(summed(request, 8) == 0, "rounds: a frame with its checksum leaves 0");
    SondeMade made = sonde_begin(sonde_fresh(17).sonde, volume, WORDS);
    SondeFrame f = send_rtu(made.sonde, request, 8, SONDE_REPLY_BYTES);
    check(f.number == SONDE_OK && f.length == 7 && memcmp(reply, "\x11\x03\x02\x00\x03", 5) == 0 && summed(reply, 7) == 0, "rounds: the reply leaves 0");
}

/* ---- after a cut: word by word, the stores of an append are made here too */

#define FREE 0xBEEF /* what free words hold */

/* A calibration of this sensor that is fit, the k-th of a volume. */
static SondeEntry entry_of(uint16_t sensor, uint16_t k) {
    static const SondeEntry fit[4] = {
        {1, 1, 0, {0.0f, 1.25f, 0.0f, 0}, {1000.0f, 1250.0f, 0.0f, 0.0f}},
        {2, 2, 0, {0.0f, 1.125f, 0.0f, 0}, {8.0f, 9.0f, 0.0f, 0.0f}},
        {3, 0, 0, {-0.0f, 2.5f, -2.0f, 0}, {0.0f, 0.0f, 0.0f, 0.0f}},
        {4, 0, 0, {-1.5f, 2.0f, 0.0f, 0}, {0.0f, 0.0f, 0.0f, 0.0f}},
    };
    SondeEntry e = fit[sensor - 1];
    e.technician = 0xA500 + k;
    e.calibration.time = 0x12345678 + k;
    return e;
}

typedef struct { size_t at; uint16_t word; } Store;

/* The stores of an append, in their order. */
static void stores_of(const uint16_t *words, SondeEntry e, Store stores[SONDE_APPEND_STORES]) {
    SondeCalibration c = e.calibration;
    uint16_t used = words[2], index = used + 1, last = words[7 + e.sensor];
    uint16_t entry[24] = {0, e.sensor, e.method, e.technician, (uint16_t)(c.time >> 16), (uint16_t)c.time};
    float floats[7] = {c.coefficient1, c.coefficient2, c.coefficient3, e.points.x1, e.points.y1, e.points.x2, e.points.y2};
    for (int i = 0; i < 7; i++) {
        uint32_t bits;
        memcpy(&bits, &floats[i], sizeof bits);
        entry[6 + 2 * i] = (uint16_t)(bits >> 16);
        entry[7 + 2 * i] = (uint16_t)bits;
    }
    for (size_t i = 0; i < 24; i++) stores[i] = (Store){64 + 24u * used + i, entry[i]};
    stores[24] = (Store){last == 0 ? 3u + e.sensor : 64 + 24u * (last - 1u), index};
    stores[25] = (Store){7u + e.sensor, index};
    stores[26] = (Store){2, index};
}

/* The first n stores made, without the library. */
static void cut_after(uint16_t *words, SondeEntry e, size_t n) {
    Store stores[SONDE_APPEND_STORES];
    stores_of(words, e, stores);
    for (size_t i = 0; i < n && i < SONDE_APPEND_STORES; i++) words[stores[i].at] = stores[i].word;
}

/* A volume whose entries are of these sensors, the first n digits. */
static void filled(uint16_t *words, const char *sensors, size_t n) {
    for (size_t i = 0; i < WORDS; i++) words[i] = FREE;
    sonde_begin(sonde_fresh(17).sonde, words, WORDS);
    for (size_t k = 0; k < n; k++) cut_after(words, entry_of((uint16_t)(sensors[k] - '0'), (uint16_t)k), SONDE_APPEND_STORES);
}

static bool same_words(const uint16_t *a, const uint16_t *b, size_t n) {
    return memcmp(a, b, n * sizeof *a) == 0;
}

static void check_cut(bool holds, const char *call, const char *sensors, size_t n) {
    char what[100];
    snprintf(what, sizeof what, "%s: sensors %s, the last one's entry cut after %zu stores", call, sensors, n);
    check(holds, what);
}

/* Journals by the sensors of their entries. The entry of the last digit is cut: the first of its sensor, or linked to one before it, the last or not. */
static const char *const journals[] = {"1", "11", "21", "121", "224", "343"};
#define JOURNALS (sizeof journals / sizeof *journals)

static void in_stores(void) {
    static uint16_t words[WORDS], due[WORDS];
    static const size_t all[] = {SONDE_APPEND_STORES, SONDE_APPEND_STORES + 1, 65536 + 3, SIZE_MAX};
    for (size_t j = 0; j < JOURNALS; j++) {
        size_t before = strlen(journals[j]) - 1;
        SondeEntry e = entry_of((uint16_t)(journals[j][before] - '0'), (uint16_t)before);
        for (size_t n = 0; n <= SONDE_APPEND_STORES; n++) {
            filled(words, journals[j], before);
            filled(due, journals[j], before);
            cut_after(due, e, n);
            sonde_append(words, WORDS, e, n);
            check_cut(same_words(words, due, WORDS), "append", journals[j], n);
        }
        filled(due, journals[j], before + 1);
        for (size_t i = 0; i < sizeof all / sizeof *all; i++) {
            filled(words, journals[j], before);
            sonde_append(words, WORDS, e, all[i]);
            check_cut(same_words(words, due, WORDS), "append", journals[j], all[i]);
        }
        SondeAudit audit = sonde_audit(sonde_power_up(17, words, WORDS).sonde, words, WORDS);
        check(audit.number == SONDE_OK && audit.entries == before + 1, "append: all stores make a volume that agrees");
    }
}

/* What isn't stored: nothing unless the sensor is one and an entry is spare; of a chain whose last is past the end, no link. */
static void not_stored(void) {
    static uint16_t words[WORDS + 24], due[WORDS + 24];
    static const struct { const char *what, *sensors; size_t length; uint16_t used, sensor; } none[] = {
        {"append: sensor 0", "12", WORDS, 2, 0},
        {"append: sensor 5", "12", WORDS, 2, 5},
        {"append: sensor 65535", "12", WORDS, 2, 65535},
        {"append: a full volume", "121", WORDS, 3, 1},
        {"append: word 2 above the capacity", "121", WORDS, 4, 1},
        {"append: word 2 is 65535", "121", WORDS, 65535, 1},
        {"append: a volume that is full by its length", "1", SONDE_LEAST_WORDS, 1, 1},
        {"append: 87 words", "", SONDE_LEAST_WORDS - 1, 0, 1},
        {"append: 3 words", "", 3, 0, 1},
        {"append: no words", "", 0, 0, 1},
    };
    for (size_t i = 0; i < sizeof none / sizeof *none; i++) {
        filled(words, none[i].sensors, strlen(none[i].sensors));
        words[2] = none[i].used;
        memcpy(due, words, sizeof due);
        SondeEntry e = entry_of(1, 7);
        e.sensor = none[i].sensor;
        for (size_t n = 0; n <= SONDE_APPEND_STORES; n++) sonde_append(words, none[i].length, e, n);
        sonde_append(words, none[i].length, e, SIZE_MAX);
        check(same_words(words, due, WORDS + 24), none[i].what);
    }

    filled(words, "1", 1);
    words[8] = 4; /* entry 4 would begin just behind the volume */
    memcpy(due, words, sizeof due);
    cut_after(due, entry_of(1, 1), SONDE_APPEND_STORES);
    due[WORDS] = words[WORDS];
    sonde_append(words, WORDS, entry_of(1, 1), SONDE_APPEND_STORES);
    check(same_words(words, due, WORDS + 24), "append: a link past the end is no store, and the others are made");
}

/* The journal of calibrated_thrice, by its entries. */
static void as_by_frames(void) {
    static uint16_t words[WORDS];
    static const SondeEntry thrice[] = {
        {1, 1, 7, {0.0f, 1.25f, 0.0f, 0x12345678}, {1000.0f, 1250.0f, 0.0f, 0.0f}},
        {3, 0, 65535, {-0.0f, 0.0f, -2.0f, 0x12345678}, {0.0f, 0.0f, 0.0f, 0.0f}},
        {2, 0, 0, {0.0f, 1.0f, 0.0f, 0x12345678}, {0.0f, 0.0f, 0.0f, 0.0f}},
    };
    memset(volume, 0, sizeof volume);
    Sonde s = calibrated_thrice();
    begun(words);
    for (size_t i = 0; i < 3; i++) sonde_append(words, WORDS, thrice[i], SONDE_APPEND_STORES);
    check(same_words(words, volume, WORDS), "append: word for word what accepted calibrations leave");
    SondeAudit audit = sonde_audit(s, words, WORDS);
    check(audit.number == SONDE_OK && audit.entries == 3, "append: it agrees with the sonde that was calibrated");
}

/* A salvage that is done: so many words changed, and these are left. */
static bool salvages(uint16_t *words, const uint16_t *due, uint16_t changed) {
    SondeSalvage s = sonde_salvage(words, WORDS);
    return s.number == SONDE_OK && s.changed == changed && same_words(words, due, WORDS);
}

/* The volume from before, or with all stores the one from after, but for the free words; again nothing changes, and a power-up agrees with it. */
static void after_cuts(void) {
    static uint16_t words[WORDS], due[WORDS];
    for (size_t j = 0; j < JOURNALS; j++) {
        size_t before = strlen(journals[j]) - 1;
        SondeEntry e = entry_of((uint16_t)(journals[j][before] - '0'), (uint16_t)before);
        for (size_t n = 0; n <= SONDE_APPEND_STORES; n++) {
            size_t used = before + (n == SONDE_APPEND_STORES);
            filled(due, journals[j], used);
            filled(words, journals[j], before);
            cut_after(words, e, n);
            memcpy(due + 64 + 24 * used, words + 64 + 24 * used, (WORDS - 64 - 24 * used) * sizeof *due);
            check_cut(salvages(words, due, n == 25 ? 1 : n == 26 ? 2 : 0), "salvage", journals[j], n);
            check_cut(salvages(words, due, 0), "salvage again", journals[j], n);
            SondeMade made = sonde_power_up(17, words, WORDS);
            SondeAudit audit = sonde_audit(made.sonde, words, WORDS);
            check_cut(made.number == SONDE_OK && audit.number == SONDE_OK && audit.entries == used, "power-up and audit", journals[j], n);
        }
    }
}

/* Chain words that were lost in any other way, in the journal "121": 1 and 3 are the entries of sensor 1, 2 is that of sensor 2. */
static void mended(void) {
    static uint16_t words[WORDS], due[WORDS];
    static const struct { const char *what; uint16_t changed; Store spoilt[6]; } chains[] = {
        {"salvage: sound", 0, {{4, 1}, {8, 3}, {5, 2}, {9, 2}, {64, 3}, {88, 0}}},
        {"salvage: a first", 1, {{4, 0}}},
        {"salvage: a first past the entries in use", 1, {{5, 65535}}},
        {"salvage: a first of a sensor without entries", 1, {{6, 1}}},
        {"salvage: a last", 1, {{8, 1}}},
        {"salvage: a last of a sensor without entries", 1, {{11, 3}}},
        {"salvage: a next that is lost", 1, {{64, 0}}},
        {"salvage: a next of itself", 1, {{64, 1}}},
        {"salvage: a next of the last entry", 1, {{112, 1}}},
        {"salvage: a next of another's", 2, {{64, 2}, {88, 3}}},
        {"salvage: two chains exchanged", 4, {{4, 2}, {5, 1}, {8, 2}, {9, 3}}},
        {"salvage: lost words of the header and of entries", 6, {{4, 0}, {5, 0}, {8, 0}, {9, 0}, {64, 0}, {112, 7}}},
        {"salvage: one of these is right", 2, {{4, 1}, {8, 0}, {64, 9}}},
    };
    for (size_t i = 0; i < sizeof chains / sizeof *chains; i++) {
        filled(words, "121", 3);
        filled(due, "121", 3);
        for (size_t k = 0; k < 6 && chains[i].spoilt[k].at > 0; k++) words[chains[i].spoilt[k].at] = chains[i].spoilt[k].word;
        check(salvages(words, due, chains[i].changed), chains[i].what);
        check(salvages(words, due, 0), "salvage: twice changes nothing");
    }

    /* The entries' sensors decide: sensor 1 may have what sensor 4 has. */
    filled(words, "14", 2);
    filled(due, "14", 2);
    words[88 + 1] = due[88 + 1] = 1;
    due[7] = due[11] = 0;
    due[8] = due[64] = 2;
    check(salvages(words, due, 4), "salvage: an entry of another sensor goes to its chain");
}

/* What no choice of chain words makes sound, in the journal "12". */
static const struct { const char *what; size_t length; Store fault; } faults[] = {
    {"salvage: no words: number 8", 0, {0, 1}},
    {"salvage: 87 words: number 8", SONDE_LEAST_WORDS - 1, {0, 1}},
    {"salvage: another length: number 8", WORDS - 1, {0, 1}},
    {"salvage: format 0: number 8", WORDS, {0, 0}},
    {"salvage: format 2: number 8", WORDS, {0, 2}},
    {"salvage: capacity 0: number 8", WORDS, {1, 0}},
    {"salvage: capacity 2: number 8", WORDS, {1, 2}},
    {"salvage: capacity 4: number 8", WORDS, {1, 4}},
    {"salvage: 4 entries in use: number 8", WORDS, {2, 4}},
    {"salvage: 65535 entries in use: number 8", WORDS, {2, 65535}},
    {"salvage: a free entry in use: number 8", WORDS, {2, 3}},
    {"salvage: word 3: number 8", WORDS, {3, 1}},
    {"salvage: word 12: number 8", WORDS, {12, 1}},
    {"salvage: word 15: number 8", WORDS, {15, 1}},
    {"salvage: word 48: number 8", WORDS, {48, 1}},
    {"salvage: word 63: number 8", WORDS, {63, 0x8000}},
    {"salvage: an opening that isn't finite: number 8", WORDS, {16, 0x7F80}},
    {"salvage: an opening out of limits: number 8", WORDS, {18, 0x4100}},
    {"salvage: an opening's third coefficient: number 8", WORDS, {38, 0x8000}},
    {"salvage: sensor 0: number 8", WORDS, {64 + 1, 0}},
    {"salvage: sensor 9: number 8", WORDS, {64 + 1, 9}},
    {"salvage: sensor 5 in the last entry: number 8", WORDS, {88 + 1, 5}},
    {"salvage: a sensor with other limits: number 8", WORDS, {64 + 1, 2}},
    {"salvage: method 3: number 8", WORDS, {64 + 2, 3}},
    {"salvage: a method without points: number 8", WORDS, {64 + 2, 0}},
    {"salvage: a coefficient: number 8", WORDS, {64 + 9, 1}},
    {"salvage: a point that isn't used: number 8", WORDS, {64 + 16, 1}},
    {"salvage: word 20 of an entry: number 8", WORDS, {64 + 20, 1}},
    {"salvage: word 23 of the last entry: number 8", WORDS, {88 + 23, 1}},
};

/* Number 8 leaves every word, and the chain words with them, which are all wrong. */
static void beyond_salvage(void) {
    static uint16_t words[WORDS], due[WORDS];
    for (size_t i = 0; i < sizeof faults / sizeof *faults; i++) {
        filled(words, "12", 2);
        for (size_t at = 4; at < 12; at++) words[at] ^= 0x8000;
        words[64] = words[88] = 0x1234;
        words[faults[i].fault.at] = faults[i].fault.word;
        memcpy(due, words, sizeof due);
        SondeSalvage s = sonde_salvage(words, faults[i].length);
        check(s.number == SONDE_BEYOND_SALVAGE && s.changed == 0 && same_words(words, due, WORDS), faults[i].what);
    }
}

/* A full volume of the most words and some behind them: every chain word, lost at once. */
static void most_mended(void) {
    static uint16_t words[SONDE_MOST_WORDS + 24], due[SONDE_MOST_WORDS + 24];
    const size_t length = SONDE_MOST_WORDS + 24;
    memset(words, 0xEE, sizeof words);
    check(sonde_begin(sonde_fresh(17).sonde, words, length).number == SONDE_OK, "salvage: a volume of the most words and 24 more");
    for (uint16_t k = 0; k < 1001; k++) sonde_append(words, length, entry_of(k % 3 + 1, k), SONDE_APPEND_STORES);
    check(words[2] == 1000 && words[4] == 1 && words[8] == 1000 && words[11] == 0, "salvage: it takes 1000 entries and no other");
    memcpy(due, words, sizeof due);
    SondeSalvage s = sonde_salvage(words, length);
    check(s.number == SONDE_OK && s.changed == 0 && same_words(words, due, length), "salvage: nothing to mend in 1000 entries");
    for (size_t at = 4; at < 12; at++) words[at] ^= 0xFFFF;
    for (size_t k = 0; k < 1000; k++) words[64 + 24 * k] ^= 0xFFFF;
    s = sonde_salvage(words, length);
    check(s.number == SONDE_OK && s.changed == 1008 && same_words(words, due, length), "salvage: all 1008 chain words mended");
}

int main(void) {
    in_rtu();
    in_ascii();
    in_both_framings();
    on_both_ports();
    within_ports();
    reads_on_both_ports();
    ascii_on_radio();
    counted_together();
    no_port();
    failed_update();
    technicians();
    on_paper();
    in_rounds();
    in_stores();
    not_stored();
    as_by_frames();
    after_cuts();
    mended();
    beyond_salvage();
    most_mended();
    return failed;
}
