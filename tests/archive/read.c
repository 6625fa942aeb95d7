/*
 * read FILE: a volume from before the technician's number (write.c says how it came about) with today's library. It is whole, replays bit for bit and has
 * no technician; an entry that is added names one. Exit status 1 where a step went otherwise than document 02's wish 3 has it.
 */
#include "client.h"

#define IN_USE 11
#define TECHNICIAN 9 /* the register */

static int failed;

static void check(bool holds, const char *what) {
    printf("%s %s\n", holds ? "ok    " : "FAILED", what);
    failed |= !holds;
}

/* Coefficients as bits, and the time: what each sensor's last calibration in write.c gives. */
typedef struct { uint32_t coefficients[3], time; } Replayed;

static Replayed due[] = {
    {{0xC00C6E00, 0x3F81826B, 0}, 1767916800},          /* entry 9: two points, m = 1329.9 / 1314.4 */
    {{0, 0x3F955555, 0}, 1768003200},                   /* entry 10: one point, 3.5 / 3 */
    {{0x3C4985F0, 0x41480000, 0x416828F6}, 1767830400}, /* entry 8: 0.0123, 12.5, 14.51 */
    {{0x3DCCCCCD, 0x3F8CCCCD, 0}, 1768089600},          /* entry 11: 0.1, 1.1 */
};

static bool load(const char *path) {
    uint8_t bytes[2 * WORDS + 1];
    FILE *file = fopen(path, "rb");
    bool whole = file != NULL && fread(bytes, 1, sizeof bytes, file) == 2 * WORDS;
    for (int i = 0; i < WORDS && whole; i++) volume[i] = bytes[2 * i] << 8 | bytes[2 * i + 1];
    if (file != NULL) fclose(file);
    return whole;
}

/* Whether the sonde has the calibrations that are due, and no technician. */
static bool replayed(const Sonde *s) {
    bool same = s->technician == 0;
    for (int i = 0; i < 4; i++) same = same && memcmp(&s->sensors[i].setup.active.calibration, &due[i], sizeof due[i]) == 0;
    return same;
}

/* Whether the volume, as it stands, is taken: by power-up with what is due, and by an audit of the sonde that this gives. */
static bool is_taken(uint16_t entries) {
    SondeMade made = sonde_power_up(1, volume, WORDS);
    if (made.number != SONDE_OK || !replayed(&made.sonde)) return false;
    SondeAudit audit = sonde_audit(made.sonde, volume, WORDS);
    return audit.number == SONDE_OK && audit.entries == entries;
}

/* The same with another word in one place. */
static bool is_taken_with(int at, uint16_t word) {
    uint16_t before = volume[at];
    volume[at] = word;
    bool taken = is_taken(IN_USE);
    volume[at] = before;
    return taken;
}

static bool is_refused_with(int at, uint16_t word) {
    uint16_t before = volume[at];
    volume[at] = word;
    uint8_t number = sonde_power_up(1, volume, WORDS).number;
    volume[at] = before;
    return number == SONDE_INVALID;
}

static bool shows(uint16_t at, uint16_t word) {
    const uint8_t body[] = {sonde.address, 3, at >> 8, at & 0xFF, 0, 1}, answer[] = {sonde.address, 3, 2, word >> 8, word & 0xFF};
    return ask(body, sizeof body, answer, sizeof answer, 0);
}

static void as_it_was_kept(void) {
    check(is_taken(IN_USE), "power-up gives 0 and what was calibrated; audit gives 0 and 11 entries");
    bool zero = true;
    for (int i = 1; i <= IN_USE; i++) zero = zero && volume[ENTRY(i, 3)] == 0;
    check(zero, "word 3 of every entry is 0");
}

static void with_other_words(void) {
    for (int i = 1; i <= IN_USE; i++)
        check(is_taken_with(ENTRY(i, 3), 1) && is_taken_with(ENTRY(i, 3), 0xFFFF), "any technician in an entry: the same figures");
    for (int word = 20; word < 24; word++) check(is_refused_with(ENTRY(5, word), 1), "1 in a word from 20 to 23 of an entry: number 4");
    check(is_refused_with(3, 1), "1 in word 3 of the header: number 4");
}

/* The entry that is added: sensor 2, direct, offset 0.125 and slope 1.0625, by technician 7. The entry before it in the chain is 10. */
static void goes_on(void) {
    static uint16_t expected[WORDS];
    const Calibrated added = {2, 0, 1768176000, {0.125f, 1.0625f}};
    memcpy(expected, volume, sizeof expected);
    expected[2] = 12;
    expected[9] = 12;
    expected[ENTRY(10, 0)] = 12;
    const uint16_t entry[24] = {0, 2, 0, 7, 0x6964, 0x3980, 0x3E00, 0, 0x3F88, 0};
    memcpy(expected + ENTRY(12, 0), entry, sizeof entry);

    sonde = sonde_power_up(1, volume, WORDS).sonde;
    check(shows(TECHNICIAN, 0), "register 9 reads 0 after power-up");
    check(put(TECHNICIAN, 7, 0) && shows(TECHNICIAN, 7), "technician 7 is written and read back");
    check(calibrate(&added), "one more calibration is accepted");
    check(memcmp(volume, expected, sizeof volume) == 0, "its entry has 7 in word 3, and the others stay as they were");
    SondeAudit audit = sonde_audit(sonde, volume, WORDS);
    check(audit.number == SONDE_OK && audit.entries == 12, "audit gives 0 and 12 entries");

    due[1] = (Replayed){{0x3E000000, 0x3F880000, 0}, added.time};
    check(is_taken(12), "power-up gives 0, the new figures of sensor 2 and those of the others");
    sonde = sonde_power_up(1, volume, WORDS).sonde;
    check(shows(TECHNICIAN, 0), "register 9 reads 0 again");
}

int main(int count, char **arguments) {
    if (count != 2 || !load(arguments[1])) return 2;
    as_it_was_kept();
    with_other_words();
    goes_on();
    return failed;
}
