/*
 * The library at the end of a pipe, for documents.py: one line in, one line out. Bytes, words and the bits of floats are hexadecimal.
 *
 *     fresh ADDRESS                        number
 *     begin COUNT                          number; the volume has COUNT words from then on, each A5A5 before the call
 *     power-up ADDRESS                     number
 *     measure SENSOR PRESENT BITS BITS     number
 *     port PORT                            0; the port of the frames that follow, the serial one before the first
 *     frame CLOCK BYTES                    number and the reply's bytes, in RTU
 *     ascii CLOCK BYTES                    number and the reply's characters as bytes, in ASCII
 *     load WORDS                           0; the volume is these words from then on
 *     words                                the volume's words
 *     append STORES WORDS                  0; so many stores of the append of an entry, whose 24 words these are
 *     salvage                              number and the words changed
 */
#include <stdio.h>
#include <stdlib.h>
#include <string.h>

#include "sonde.h"

#define MOST 30000

static uint16_t volume[MOST];
static uint8_t reply[SONDE_ASCII_REPLY_BYTES];
static size_t words;
static uint8_t port = SONDE_PORT_SERIAL;
static Sonde sonde;

/* A refused fresh or power-up doesn't count as made: the sonde before it goes on. */
static unsigned made_by(SondeMade made) {
    if (made.number == SONDE_OK) sonde = made.sonde;
    return made.number;
}

static float float_in(uint32_t bits) {
    float value;
    memcpy(&value, &bits, sizeof value);
    return value;
}

static float float_of(const char *bits) {
    return float_in((uint32_t)strtoul(bits, NULL, 16));
}

static unsigned begin(size_t count) {
    words = count;
    for (size_t i = 0; i < words; i++) volume[i] = 0xA5A5;
    return made_by(sonde_begin(sonde, volume, words));
}

static unsigned measure(void) {
    uint8_t sensor = (uint8_t)atoi(strtok(NULL, " "));
    bool present = atoi(strtok(NULL, " ")) != 0;
    float raw1 = float_of(strtok(NULL, " ")), raw2 = float_of(strtok(NULL, " "));
    return made_by(sonde_measure(sonde, sensor, present, raw1, raw2));
}

static void frame(bool ascii) {
    uint32_t clock = (uint32_t)strtoul(strtok(NULL, " "), NULL, 10);
    uint8_t bytes[1024];
    size_t n = 0;
    for (char *byte; n < sizeof bytes && (byte = strtok(NULL, " ")) != NULL;) bytes[n++] = (uint8_t)strtoul(byte, NULL, 16);
    size_t room = ascii ? SONDE_ASCII_REPLY_BYTES : SONDE_REPLY_BYTES;
    SondeFrame f = sonde_frame(sonde, bytes, n, reply, room, volume, words, clock, ascii, port);
    sonde = f.sonde;
    printf("%u", f.number);
    for (size_t i = 0; i < f.length; i++) printf(" %02X", reply[i]);
}

static void set_port(void) {
    port = (uint8_t)atoi(strtok(NULL, " "));
    printf("0");
}

static void load(void) {
    words = 0;
    for (char *word; words < MOST && (word = strtok(NULL, " ")) != NULL;) volume[words++] = (uint16_t)strtoul(word, NULL, 16);
    printf("0");
}

static void append(void) {
    size_t stores = (size_t)atol(strtok(NULL, " "));
    uint32_t pairs[12] = {0}; /* the entry's words two by two, as its time and its floats stand */
    for (size_t i = 0; i < 24; i++) pairs[i / 2] = pairs[i / 2] << 16 | (uint16_t)strtoul(strtok(NULL, " "), NULL, 16);
    SondeEntry entry = {
        .sensor = (uint16_t)pairs[0],
        .method = (uint16_t)(pairs[1] >> 16),
        .technician = (uint16_t)pairs[1],
        .calibration = {float_in(pairs[3]), float_in(pairs[4]), float_in(pairs[5]), pairs[2]},
        .points = {float_in(pairs[6]), float_in(pairs[7]), float_in(pairs[8]), float_in(pairs[9])},
    };
    sonde_append(volume, words, entry, stores);
    printf("0");
}

static void salvage(void) {
    SondeSalvage salvaged = sonde_salvage(volume, words);
    printf("%u %u", salvaged.number, salvaged.changed);
}

int main(void) {
    static char line[6 * MOST];
    while (fgets(line, sizeof line, stdin) != NULL) {
        line[strcspn(line, "\n")] = 0;
        char *call = strtok(line, " ");
        if (call == NULL) return 2;
        if (strcmp(call, "fresh") == 0) printf("%u", made_by(sonde_fresh((uint8_t)atoi(strtok(NULL, " ")))));
        else if (strcmp(call, "begin") == 0) printf("%u", begin((size_t)atol(strtok(NULL, " "))));
        else if (strcmp(call, "power-up") == 0) printf("%u", made_by(sonde_power_up((uint8_t)atoi(strtok(NULL, " ")), volume, words)));
        else if (strcmp(call, "measure") == 0) printf("%u", measure());
        else if (strcmp(call, "port") == 0) set_port();
        else if (strcmp(call, "frame") == 0) frame(false);
        else if (strcmp(call, "ascii") == 0) frame(true);
        else if (strcmp(call, "load") == 0) load();
        else if (strcmp(call, "append") == 0) append();
        else if (strcmp(call, "salvage") == 0) salvage();
        else if (strcmp(call, "words") == 0) for (size_t i = 0; i < words; i++) printf("%s%04X", i == 0 ? "" : " ", volume[i]);
        else return 2;
        printf("\n");
        fflush(stdout);
    }
    return 0;
}
