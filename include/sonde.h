/*
 * The register service of a water-quality sonde over Modbus RTU and ASCII, on a serial line and a radio bridge: four sensors, their calibration, and the
 * journal of every accepted calibration.
 *
 * Ten calls. Each is a function of its arguments alone: no call keeps anything, allocates, blocks or fails to return. The sonde goes in and
 * comes back by value; the host keeps it between calls. The volume (the words of the journal) is the host's memory and is lent for the call.
 * Calls on different sondes and volumes may run at the same time.
 *
 * Link with libsonde.a: `cc host.c $(pkg-config --cflags --libs sonde)` once `./install` has put it in place, or target/staticlib/libsonde.a, which
 * `tests/library` writes.
 *
 *     uint16_t volume[24064];
 *     uint8_t reply[SONDE_REPLY_BYTES];                 ASCII: SONDE_ASCII_REPLY_BYTES, and true in the place of false below
 *     bool kept = load(volume, 24064);                  false at the very first start
 *     if (kept) sonde_salvage(volume, 24064);           where the volume is stored in place: see sonde_salvage
 *     SondeMade made = kept ? sonde_power_up(1, volume, 24064) : sonde_fresh(1);
 *     if (!kept && made.number == SONDE_OK) made = sonde_begin(made.sonde, volume, 24064);
 *     if (made.number != SONDE_OK) { ... }
 *     Sonde sonde = made.sonde;
 *     for (;;) {
 *         size_t n = next_frame(bytes);                 the host cuts frames, see sonde_frame
 *         sonde = sonde_measure(sonde, 1, true, conductivity(), temperature()).sonde;
 *         SondeFrame f = sonde_frame(sonde, bytes, n, reply, sizeof reply, volume, 24064, seconds(), false, SONDE_PORT_SERIAL);
 *         if (f.number != SONDE_OK) { ... }             nothing was changed
 *         sonde = f.sonde;
 *         store(volume, 24064);                         safely, before the reply is sent
 *         if (f.length > 0) send(reply, f.length);
 *     }
 *
 * Pointers: each is valid for its length, aligned for its type, not null even where the length is 0, and no two lent parts overlap.
 *
 * The machine: x86-64 with the System V ABI; code that may stand anywhere in memory, and no more than SSE2. Floats are as C starts with them: rounded to
 * nearest, subnormals kept. Of the C library it needs memcpy and nothing else. No heap, and no variables of its own (.data and .bss are empty).
 *
 *     flash   at most 28672 bytes of code and constants
 *     stack   at most 3648 bytes for a call, with its arguments and its result. A memcpy that the dynamic linker binds late takes its own at first
 *     RAM     what the host keeps: a sonde 396 bytes, the volume 2 for each word (48128 for 1000 entries), the reply 256 (ASCII 513)
 *             and where it prints, the page: 53 for each line (53212 for 1000 entries)
 */
#ifndef SONDE_H
#define SONDE_H

#include <stdbool.h>
#include <stddef.h>
#include <stdint.h>

#ifdef __cplusplus
extern "C" {
#endif

#define SONDE_VERSION "0.1.0"

/* ---- sizes ---- */

#define SONDE_REPLY_BYTES 256       /* the least reply buffer for an RTU frame, on either port; a reply is never longer */
#define SONDE_ASCII_REPLY_BYTES 513 /* for an ASCII frame; the longest reply has 511 characters */
#define SONDE_LEAST_WORDS 88        /* the least volume: capacity 1 */
#define SONDE_MOST_WORDS 24064      /* words beyond these are never used: capacity 1000 */
#define SONDE_MOST_PAGE_BYTES 53212 /* the longest page: 1000 entries */
#define SONDE_APPEND_STORES 27      /* the stores of an append, see sonde_append */

/* The page of a volume with so many entries in use: a line of 53 bytes for each sensor's opening, and for each entry. */
#define SONDE_PAGE_BYTES(entries) (53 * (4 + (size_t)(entries)))

/* ---- ports: where a frame came from, and where its reply goes; see sonde_frame ---- */

enum {
    SONDE_PORT_SERIAL = 1, /* the serial line */
    SONDE_PORT_RADIO = 2   /* the radio bridge, which carries 64 bytes */
};

/* ---- numbers: what a call is refused by. A call that is refused changes nothing. ---- */

enum {
    SONDE_OK = 0,             /* done; also of a frame that was answered by an exception, or got no reply */
    SONDE_BAD_ADDRESS = 1,    /* fresh, power-up: the address isn't 1..247 */
    SONDE_SHORT_VOLUME = 2,   /* begin: fewer than 88 words */
    SONDE_SHORT_REPLY = 3,    /* frame: the reply buffer has fewer than 256 bytes (RTU) or 513 (ASCII) */
    SONDE_INVALID = 4,        /* the sonde or the volume is invalid, or the calibrations in force aren't the volume's, bit for bit */
    SONDE_NO_SENSOR = 5,      /* measure: the sensor isn't 1..4 */
    SONDE_NOT_FINITE = 6,     /* measure, present: a raw value that is read isn't finite */
    SONDE_SHORT_PAGE = 7,     /* print: the page has fewer bytes than SONDE_PAGE_BYTES of the entries in use */
    SONDE_BEYOND_SALVAGE = 8, /* salvage: the volume has a fault that no choice of its chain words makes valid */
    SONDE_NO_PORT = 9         /* frame: the port isn't 1 or 2 */
};

/* ---- the sonde. A host copies it and need not look inside; a sonde that it builds by hand has to be valid (number 4). ---- */

typedef struct { float coefficient1, coefficient2, coefficient3; } SondeCoefficients;
typedef struct { float coefficient1, coefficient2, coefficient3; uint32_t time; } SondeCalibration;
typedef struct { float x1, y1, x2, y2; } SondePoints;
typedef struct { uint16_t units; float sentinel; } SondeParameter;

/* A calibration in progress. */
typedef struct {
    bool calibrating;         /* calibration mode */
    SondeCoefficients trial;  /* those that mode shows: as written, or the candidate of an update, accepted or refused for its limits alone */
    uint16_t method;          /* 0 direct, 1 one point, 2 two points */
    SondePoints points;
} SondeProcedure;

/* The calibration in force. */
typedef struct {
    SondeCalibration calibration;  /* the coefficients, and when they were calibrated */
    uint32_t next;                 /* the next calibration's time */
} SondeActive;

typedef struct {
    uint16_t level;  /* the level parameter's id, on sensor 3 */
    SondeParameter parameter1, parameter2, parameter3;
} SondeParameters;

/* What frames write, and what a calibration decides. */
typedef struct { SondeProcedure procedure; SondeActive active; SondeParameters parameters; } SondeSetup;

/* What measurements write: the raw values, of which the second is sensor 1's temperature. */
typedef struct { bool present; float raw1, raw2; } SondeSample;

typedef struct { SondeSetup setup; SondeSample sample; } SondeSensor;

typedef struct { uint16_t good, bad, exceptions; } SondeCounters;

typedef struct {
    uint8_t address;
    uint16_t technician;     /* the technician's number, register 9; 0 not given. Any value is valid; fresh and power-up make it 0 */
    SondeSensor sensors[4];  /* elements 0 to 3 are sensors 1 conductivity, 2 dissolved oxygen, 3 level and 4 chlorophyll-a */
    SondeCounters counters;
} Sonde;

/* An entry of the journal: an accepted calibration. Points that its method doesn't use are +0.0. */
typedef struct { uint16_t sensor, method, technician; SondeCalibration calibration; SondePoints points; } SondeEntry;

/* ---- what calls hand back ---- */

typedef struct { uint8_t number; Sonde sonde; } SondeMade;
typedef struct { uint8_t number; uint16_t length; Sonde sonde; } SondeFrame;
typedef struct { uint8_t number; uint16_t entries; } SondeAudit;
typedef struct { uint8_t number; uint32_t length; } SondePrint;
typedef struct { uint8_t number; uint16_t changed; } SondeSalvage;

/* ---- the calls ---- */

/* A sonde as it leaves the works, with this address. Refused by 1; the sonde is then the fresh one of address 1 and doesn't count as made. */
SondeMade sonde_fresh(uint8_t address);

/*
 * Begins a journal in a volume: words 0..63 are written, with the calibrations in force as its opening; the others stay. A journal that the volume
 * held is lost by it: for one that is there, sonde_power_up is the call, and for a full one (exception 0xC0) another volume, begun with the same
 * sonde. The sonde comes back unchanged, refused or not. Refused by 2, then 4 (the sonde alone is looked at); the volume then stays as it was.
 */
SondeMade sonde_begin(Sonde sonde, uint16_t *volume, size_t words);

/*
 * The sonde after a power cut: the calibrations that the volume's journal gives, all else as fresh, with the technician's number 0. Refused by 1, then
 * 4 (the volume alone is looked at); the sonde is then the fresh one of address 1 and doesn't count as made: a host that has a sonde goes on with it.
 */
SondeMade sonde_power_up(uint8_t address, const uint16_t *volume, size_t words);

/*
 * A measurement of sensor 1..4, with its raw values. The second is read for sensor 1 only (its temperature). Not present, none is read and
 * the old ones stay. Refused by 4 (the sonde alone is looked at), 5, then 6; the sonde is then the one that went in.
 */
SondeMade sonde_measure(Sonde sonde, uint8_t sensor, bool present, float raw1, float raw2);

/*
 * One Modbus frame, whole, at this clock (whole seconds). The reply has the framing of its request; `length` bytes of the reply buffer are to be
 * sent, 0 for none, and the bytes past them stay. The volume changes by an accepted calibration alone: write it to safe storage before the reply
 * is sent. The entry of a calibration carries the technician's number that the sonde has at its update. Refused by 9, 3, then 4; the length is then 0,
 * and sonde, reply and volume stay as they were. A frame that is answered by an exception changes the sonde's counters and nothing else, but for an
 * update that is refused for its limits alone (0x97): its candidate becomes the trial.
 *
 * `ascii` says which framing the frame has, and by that how long the reply buffer has to be, whatever the frame holds and on either port. The host cuts
 * frames:
 *     RTU     (false) by silence; up to 256 bytes, the CRC-16 among them
 *     ASCII   (true) from a colon to LF, both included, and from the last colon where there are more; up to 513 characters, their top bit 0 (of
 *             7 data bits with parity, the parity bit taken off), digits A-F in capitals
 * A frame that breaks its form, or is longer, counts bad and gets no reply. Of a longer one the first 257 bytes (ASCII 514) are enough.
 *
 * `port` says where the frame came from, and is looked at first of all. Both ports share the sonde, its counters and its volume; they differ in what
 * they take:
 *     SONDE_PORT_SERIAL   frames as above, and reads of up to 125 registers
 *     SONDE_PORT_RADIO    RTU frames of up to 64 bytes, and reads of up to 29 registers; no reply has more than 64 bytes
 * On the radio a longer frame (of which the first 65 bytes are enough) and every ASCII frame counts bad and gets no reply, whatever its address. A read of
 * more registers than its port takes is exception 3.
 */
SondeFrame sonde_frame(Sonde sonde, const uint8_t *frame, size_t frame_len, uint8_t *reply, size_t reply_len, uint16_t *volume, size_t words,
                       uint32_t clock, bool ascii, uint8_t port);

/* Whether the sonde and its volume are valid and agree: 0 with the entries in use, or 4 with 0. Changes nothing. */
SondeAudit sonde_audit(Sonde sonde, const uint16_t *volume, size_t words);

/*
 * The journal on paper: a line for the opening of each sensor, 1 to 4, then one for each entry by its index. `length` bytes of the page are written,
 * SONDE_PAGE_BYTES of the entries in use, and the bytes past them stay. It takes no sonde, prints a valid volume of any length and changes none.
 * Refused by 4 (the volume alone is looked at), then 7; the length is then 0, and the page stays as it was.
 *
 * A line is 52 characters and LF, with one space between its columns: index (4 wide), sensor (1), method (1), technician (5), time (10) and the three
 * coefficients (8 each). Numbers are decimal, right-aligned and without leading zeros; a coefficient is the bits of its float, in capital hexadecimal
 * digits. An opening has index 0, method "-" and technician 0. There is no header. Sensor 1, begun fresh and then calibrated at 1000 by technician 7,
 * with the point (1000, 1250):
 *        0 1 -     0          0 00000000 3F800000 00000000
 *        1 1 1     7       1000 00000000 3FA00000 00000000
 */
SondePrint sonde_print(const uint16_t *volume, size_t words, uint8_t *page, size_t page_len);

/*
 * The first `stores` stores of the append of an entry; SONDE_APPEND_STORES and more are all of them. sonde_frame appends by it with all: a host has no
 * need of it but to try what a cut in the middle of an append leaves. In order, upward: the entry's 24 words at 64 + 24 x (entries in use); the link to
 * it, which is the next word of the same sensor's previous entry, or the chain's first (words 4..7); the chain's last (words 8..11); the entries in use
 * (word 2). It has no number and doesn't judge the entry. It stores nothing unless the entry's sensor is 1..4 and word 2 is below the capacity that
 * `words` gives, so that it spoils no full volume; a link past the end of the volume is no store.
 */
void sonde_append(uint16_t *volume, size_t words, SondeEntry entry, size_t stores);

/*
 * A volume after a supply failed in the middle of an append, for a host that keeps the volume where sonde_frame stores into it (FRAM, battery-backed
 * RAM, a mapped file) and so may find an entry half written. Call it at each start, before sonde_power_up. Wherever the cut fell, the volume is then
 * the one from before the append, or the one from after it where the entries in use were stored, in every word but the free ones behind the entries in
 * use; a calibration whose reply was sent is never lost. It rewrites the chain words of the header (4..11) and the next words of the entries in use, and
 * nothing else, as the entries' sensors give them; `changed` is how many words differ afterwards, 0 for a valid volume. Refused by 8, in place of 4,
 * where no choice of those words makes the volume valid; `changed` is then 0, and the volume stays as it was.
 */
SondeSalvage sonde_salvage(uint16_t *volume, size_t words);

/*
 * One round of the CRC-16 of Modbus RTU: the running sum after a word, its low byte first and then its high byte, for every sum and word, with no loop.
 * It has no number and refuses nothing. A checksum begins at 0xFFFF and takes a round for each two bytes of a frame, the earlier one as the word's low half; an
 * odd last byte goes on its own, by a round too. The checksum stands behind the frame, low byte first, and over both the sum is 0.
 *     uint16_t sum = 0xFFFF;
 *     for (; n > 1; n -= 2, bytes += 2) sum = sonde_crc_round(sum, (uint16_t)(bytes[0] | bytes[1] << 8));
 *     if (n == 1) sum = sonde_crc_round((uint16_t)((sum ^ bytes[0]) << 8), 0) ^ (sum >> 8);
 */
uint16_t sonde_crc_round(uint16_t sum, uint16_t word);

#ifdef __cplusplus
}
#endif

#endif
