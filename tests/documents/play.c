/*
 * play DOCUMENT FILE: plays the dialogues of a document through the library: lines "    @ SECONDS" set the clock, "    > BYTES" is an RTU frame in
 * hexadecimal, "    > :DIGITS" an ASCII frame without its CR LF, and "    < BYTES" or "    < :DIGITS" its reply ("    <" alone: none). A frame by radio has
 * ">>" and its reply "<<". RTU frames of the serial line go to one sonde, its ASCII frames to another and all frames by radio to a third, each fresh with
 * address 1 and a volume of 136 words. Prints the volume of the first as docs/ARCHIVE.md shows it, and writes it to the file as ./serve does; the exit
 * status is 1 where a reply differs or is missing, or the document has no dialogue for one of the sondes.
 */
#include <stdio.h>
#include <stdlib.h>
#include <string.h>

#include "sonde.h"

#define WORDS 136
#define BYTES 520
#define UNREAD SIZE_MAX

typedef struct { uint8_t port; Sonde sonde; uint16_t volume[WORDS]; size_t played; } Side;

static Side rtu = {.port = SONDE_PORT_SERIAL}, ascii = {.port = SONDE_PORT_SERIAL}, radio = {.port = SONDE_PORT_RADIO};
static uint8_t reply[SONDE_ASCII_REPLY_BYTES];

/* The bytes of a line in hexadecimal, up to two spaces or its end; UNREAD where something else stands there. */
static size_t bytes_of(const char *text, uint8_t *bytes) {
    size_t n = 0;
    while (n < BYTES && text[0] == ' ' && strspn(text + 1, "0123456789ABCDEF") == 2) {
        bytes[n++] = (uint8_t)strtoul(text + 1, NULL, 16);
        text += 3;
    }
    return text[0] == 0 || strncmp(text, "  ", 2) == 0 ? n : UNREAD;
}

/* The characters of a line behind its first space, up to two spaces or its end, with CR LF; none where the line has none. */
static size_t characters_of(const char *text, uint8_t *bytes) {
    size_t n = 0;
    if (*text++ != ' ') return 0;
    while (n < BYTES - 2 && text[n] != 0 && strncmp(text + n, "  ", 2) != 0) {
        bytes[n] = (uint8_t)text[n];
        n++;
    }
    bytes[n++] = '\r';
    bytes[n++] = '\n';
    return n;
}

static int begin(Side *side) {
    SondeMade made = sonde_fresh(1);
    if (made.number == SONDE_OK) made = sonde_begin(made.sonde, side->volume, WORDS);
    side->sonde = made.sonde;
    return made.number == SONDE_OK;
}

int main(int count, char **arguments) {
    FILE *document = count == 3 ? fopen(arguments[1], "r") : NULL, *file = count == 3 ? fopen(arguments[2], "w") : NULL;
    if (document == NULL || file == NULL) {
        fprintf(stderr, "play: give a document that can be read and a file that can be written\n");
        return 2;
    }
    if (!begin(&rtu) || !begin(&ascii) || !begin(&radio)) return 2;
    Side *side = NULL; /* the one that was asked and whose reply is to be compared */
    uint32_t clock = 0;
    size_t length = 0;
    int differs = 0;
    char line[2048];
    uint8_t bytes[BYTES];
    while (fgets(line, sizeof line, document) != NULL) {
        line[strcspn(line, "\n")] = 0;
        char mark = strncmp(line, "    ", 4) == 0 ? line[4] : 0;
        bool by_radio = mark != 0 && line[5] == mark;
        const char *text = line + 5 + by_radio;
        if (mark == '@') clock = (uint32_t)strtoul(text, NULL, 10);
        if (mark == '>') {
            if (side != NULL) {
                fprintf(stderr, "play: no reply is written before: %s\n", line);
                differs = 1;
            }
            bool is_ascii = strncmp(text, " :", 2) == 0;
            side = by_radio ? &radio : is_ascii ? &ascii : &rtu;
            size_t n = is_ascii ? characters_of(text, bytes) : bytes_of(text, bytes);
            if (n == UNREAD) {
                fprintf(stderr, "play: neither an RTU nor an ASCII frame: %s\n", line);
                return 1;
            }
            size_t room = is_ascii ? sizeof reply : SONDE_REPLY_BYTES;
            SondeFrame f = sonde_frame(side->sonde, bytes, n, reply, room, side->volume, WORDS, clock, is_ascii, side->port);
            if (f.number != SONDE_OK) differs = 1;
            side->sonde = f.sonde;
            length = f.length;
        }
        if (mark == '<') {
            size_t n = side == &ascii ? characters_of(text, bytes) : bytes_of(text, bytes);
            if (side == NULL || by_radio != (side == &radio) || n != length || memcmp(bytes, reply, length) != 0) {
                fprintf(stderr, "play: the reply differs: %s\n", line);
                differs = 1;
            }
            if (side != NULL) side->played++;
            side = NULL;
        }
    }
    fclose(document);
    if (side != NULL) differs = 1;
    if (sonde_audit(rtu.sonde, rtu.volume, WORDS).number != SONDE_OK) differs = 1;
    if (sonde_audit(ascii.sonde, ascii.volume, WORDS).number != SONDE_OK) differs = 1;
    if (sonde_audit(radio.sonde, radio.volume, WORDS).number != SONDE_OK) differs = 1;
    for (int i = 0; i < WORDS; i++) fprintf(file, "%c%c", rtu.volume[i] >> 8, rtu.volume[i] & 0xFF);
    if (fclose(file) != 0) return 2;
    for (int i = 0; i < WORDS; i++) printf("%s%04X%s", i % 8 == 0 ? "    " : " ", rtu.volume[i], i % 8 == 7 ? "\n" : "");
    fprintf(stderr, "play: %zu replies compared in RTU, %zu in ASCII and %zu by radio\n", rtu.played, ascii.played, radio.played);
    return differs || rtu.played == 0 || ascii.played == 0 || radio.played == 0;
}
