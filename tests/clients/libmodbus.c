/*
 * libmodbus before|after DEVICE: one line for each step, exit status 1 where one went wrong. libmodbus floats: what its setter makes of 1.0.
 * libmodbus rounds DEVICE SENSOR COUNT serial|radio: so many calibrations of sensor 1 or 4 at clock 1767225600, a line with the words of the entry for
 * each, and a line with the number of requests.
 *
 * libmodbus gives exceptions 1 to 11 an errno of their own. Any other code, such as 0x92, is EMBBADEXC ('Invalid exception code') without its number,
 * so these are also asked for as raw frames, whose reply holds the code.
 */
#include <errno.h>
#include <stdbool.h>
#include <stdio.h>
#include <stdlib.h>
#include <string.h>

#include <modbus/modbus.h>

#define ADDRESS 17
#define WORDS(...) sizeof((uint16_t[]){__VA_ARGS__}) / 2, (uint16_t[]){__VA_ARGS__}
#define FLOATS(...) sizeof((float[]){__VA_ARGS__}) / 4, (float[]){__VA_ARGS__}

static modbus_t *line;
static int asked, refusals, failed;

static void result(bool holds, const char *what) {
    printf("%s %s\n", holds ? "ok    " : "FAILED", what);
    failed |= !holds;
}

static void reads(int from, int n, const uint16_t *expected, const char *what) {
    uint16_t got[MODBUS_MAX_READ_REGISTERS];
    asked++;
    result(modbus_read_registers(line, from, n, got) == n && memcmp(got, expected, 2 * n) == 0, what);
}

static void reads_floats(int from, int n, const float *expected, const char *what) {
    uint16_t got[MODBUS_MAX_READ_REGISTERS];
    asked++;
    bool same = modbus_read_registers(line, from, 2 * n, got) == 2 * n;
    for (int i = 0; i < n && same; i++) {
        float value = modbus_get_float_abcd(got + 2 * i);
        same = memcmp(&value, &expected[i], sizeof value) == 0;
    }
    result(same, what);
}

/* Function 6. */
static void writes(int at, uint16_t word, const char *what) {
    asked++;
    result(modbus_write_register(line, at, word) == 1, what);
}

/* Function 16. */
static void writes_two(int at, uint16_t high, uint16_t low, const char *what) {
    asked++;
    result(modbus_write_registers(line, at, WORDS(high, low)) == 2, what);
}

/* The words are made here: modbus_set_float_abcd of libmodbus 3.1.6 swaps the bytes of each word on a little-endian machine (its getter doesn't). */
static void writes_float(int at, float value, const char *what) {
    uint32_t bits;
    memcpy(&bits, &value, sizeof bits);
    writes_two(at, bits >> 16, bits & 0xFFFF, what);
}

/* Function 22. */
static void masks(int at, uint16_t and_mask, uint16_t or_mask, const char *what) {
    asked++;
    result(modbus_mask_write_register(line, at, and_mask, or_mask) != -1, what);
}

/* What a call that has just returned -1 set errno to. */
static void refused(int returned, int error, const char *what) {
    int was = errno;
    asked++;
    refusals++;
    result(returned == -1 && was == error, what);
}

/* A write by function 6 that is refused by a code that isn't Modbus's own: by libmodbus's call, and as a raw frame. */
static void refused_by(uint8_t code, int at, uint16_t word, const char *what) {
    refused(modbus_write_register(line, at, word), EMBBADEXC, what);
    uint8_t request[] = {ADDRESS, 6, at >> 8, at & 0xFF, word >> 8, word & 0xFF}, reply[MODBUS_RTU_MAX_ADU_LENGTH];
    asked++;
    refusals++;
    bool came = modbus_send_raw_request(line, request, sizeof request) != -1 && modbus_receive_confirmation(line, reply) == 5;
    result(came && reply[0] == ADDRESS && reply[1] == 0x86 && reply[2] == code, "the code of the last, in a raw reply");
}

/* value, id, units, quality, sentinel 0.0, available units */
static void parameter(int at, float value, uint16_t id, uint16_t units, uint16_t quality, uint16_t available, const char *what) {
    reads_floats(at, FLOATS(value), what);
    reads(at + 2, WORDS(id, units, quality, 0, 0, available), "id, units, quality, sentinel 0.0, available units of the last");
}

/* What libmodbus makes of a float, beside the words made here. docs/REGISTERS.md says so. */
static void floats(void) {
    uint16_t one[] = {0x3F80, 0x0000}, swapped[] = {0x0000, 0x3F80}, got[2];
    result(modbus_get_float_abcd(one) == 1.0f, "modbus_get_float_abcd takes the high word first");
    result(modbus_get_float(swapped) == 1.0f, "modbus_get_float takes the low word first");
    modbus_set_float(1.0f, got);
    result(memcmp(got, swapped, sizeof got) == 0, "modbus_set_float gives the low word first");
    if (strcmp(LIBMODBUS_VERSION_STRING, "3.1.6") != 0 || __BYTE_ORDER__ != __ORDER_LITTLE_ENDIAN__) return;
    modbus_set_float_abcd(1.0f, got);
    result(memcmp(got, one, sizeof got) != 0, "modbus_set_float_abcd of 3.1.6 is wrong");
    modbus_set_float_badc(1.0f, got);
    result(memcmp(got, one, sizeof got) == 0, "modbus_set_float_badc of 3.1.6 gives the high word first");
}

static void map(void) {
    reads(0, WORDS(3, 1, 0x6955, 0xB900, 0, 0, 0, 3, 0, 0),
          "device: version 3, id 1, clock 1767225600, counters 0, capacity 3, 0 entries, no technician");
    reads(100, WORDS(1, 0, 0, 0, 0, 0, 0, 3), "sensor 1: 3 parameters");
    reads(200, WORDS(2, 0, 0, 0, 0, 0, 0, 1), "sensor 2: 1 parameter");
    reads(300, WORDS(3, 0, 0, 0, 0, 0), "sensor 3");
    reads(307, WORDS(2), "sensor 3: 2 parameters");
    reads(400, WORDS(4, 0, 0, 0, 0, 0, 0, 1), "sensor 4: 1 parameter");
    reads_floats(110, FLOATS(0, 1), "sensor 1: coefficients 0, 1");
    reads_floats(210, FLOATS(0, 1), "sensor 2: coefficients 0, 1");
    reads_floats(310, FLOATS(0, 0, 0), "sensor 3: coefficients 0, 0, 0");
    reads_floats(410, FLOATS(0, 1), "sensor 4: coefficients 0, 1");
    reads_floats(116, FLOATS(0, 0, 0, 0), "sensor 1: points 0");
    reads_floats(216, FLOATS(0, 0, 0, 0), "sensor 2: points 0");
    reads_floats(416, FLOATS(0, 0, 0, 0), "sensor 4: points 0");
    parameter(130, 20, 1, 1, 0, 0x0003, "temperature 20 °C");
    parameter(138, 1000, 9, 65, 0, 1, "conductivity 1000");
    parameter(146, 1000, 11, 81, 0, 1, "resistivity 1000000 / 1000");
    parameter(230, 8, 20, 117, 0, 0x0010, "oxygen 8");
    parameter(330, 14.7f, 2, 17, 0, 0x003D, "pressure 14.7 psi");
    parameter(338, 14.7f * 0.70307f / 1.0f, 3, 35, 0, 0x0004, "level 14.7 × 0.70307 / 1.0 m");
    parameter(430, 5, 51, 118, 0, 0x0020, "chlorophyll 5");
}

static void writing(void) {
    writes(133, 2, "write units of the temperature: °F");
    reads(133, WORDS(2), "units of the temperature: 2");
    reads_floats(130, FLOATS(20 * 1.8f + 32), "temperature 20 × 1.8 + 32");
    writes_two(103, 0x6B49, 0xD200, "write next calibration of sensor 1");
    reads(103, WORDS(0x6B49, 0xD200), "next calibration of sensor 1");
    writes_float(435, -999.5f, "write sentinel of the chlorophyll");
    reads_floats(435, FLOATS(-999.5f), "sentinel of the chlorophyll");
    masks(333, 0xFFFC, 0x0003, "mask write of the pressure's units: (17 and 0xFFFC) or 3 = 19");
    reads(333, WORDS(19), "units of the pressure: 19");
    reads_floats(330, FLOATS(14.7f * 6.894757f), "pressure 14.7 × 6.894757 kPa");
    writes(9, 7, "write technician 7");
    reads(9, WORDS(7), "technician 7");
}

static void refusing(void) {
    uint16_t none[MODBUS_MAX_READ_REGISTERS];
    refused(modbus_read_input_registers(line, 0, 1, none), EMBXILFUN, "code 1, input registers: EMBXILFUN");
    refused(modbus_read_registers(line, 10, 1, none), EMBXILADD, "code 2, register 10: EMBXILADD");
    refused(modbus_read_registers(line, 300, 8, none), EMBXILADD, "code 2, no method on sensor 3: EMBXILADD");
    refused(modbus_read_registers(line, 0, 0, none), EMBXILVAL, "code 3, no registers: EMBXILVAL");
    refused_by(0x80, 110, 0x3F80, "code 0x80, half of a float: EMBBADEXC");
    refused_by(0xC2, 0, 4, "code 0xC2, the version of the map: EMBBADEXC");
    refused_by(0x92, 106, 1, "code 0x92, method with mode off: EMBBADEXC");
    refused_by(0x92, 105, 0xE001, "code 0x92, update with mode off: EMBBADEXC");
    refused_by(0x84, 133, 7, "code 0x84, units that are not listed: EMBBADEXC");
}

static void calibration(void) {
    writes(105, 0xE000, "mode on");
    reads(105, WORDS(1), "mode is on");
    reads(142, WORDS(6), "quality of the conductivity: 6");
    writes(106, 1, "method: one point");
    refused_by(0x97, 105, 0xE001, "code 0x97, update with x1 = 0: EMBBADEXC");
    writes_float(116, 1000, "x1 = 1000");
    writes_float(118, 5000, "y1 = 5000");
    refused_by(0x97, 105, 0xE001, "code 0x97, a constant outside the limits: EMBBADEXC");
    reads_floats(110, FLOATS(0, 5), "sensor 1: coefficients of the failed update 0, 5000 / 1000");
    reads(8, WORDS(0), "no entry in use");
    writes_float(118, 1250, "y1 = 1250");
    masks(105, 0, 0xE001, "update, by a mask write");
    writes(105, 0xE002, "mode off");
    reads_floats(110, FLOATS(0, 1.25f), "sensor 1: coefficients 0, 1250 / 1000");
    reads(101, WORDS(0x6955, 0xB900, 0, 0), "last calibration 1767225600, next 0");
    reads_floats(138, FLOATS(1250), "conductivity 0 + (1.25 × 1000)");
    reads_floats(146, FLOATS(800), "resistivity 1000000 / 1250");
    reads(8, WORDS(1), "1 entry in use");
}

static void powered_up(void) {
    reads(0, WORDS(3, 1, 0x6957, 0x0A80, 0, 0, 0, 3, 1, 0), "device: clock 1767312000, counters 0, capacity 3, 1 entry, no technician");
    reads_floats(110, FLOATS(0, 1.25f), "sensor 1: coefficients 0, 1.25");
    reads(101, WORDS(0x6955, 0xB900, 0, 0, 0, 0), "last calibration 1767225600, next 0, mode off, method 0");
    reads_floats(138, FLOATS(1250), "conductivity 1250");
    reads(133, WORDS(1), "units of the temperature: 1");
    reads_floats(435, FLOATS(0), "sentinel of the chlorophyll: 0");
}

static void full(void) {
    writes(205, 0xE000, "mode on, sensor 2");
    writes_float(212, 1.125f, "slope 1.125");
    writes(205, 0xE001, "update");
    writes_float(210, -0.125f, "offset -0.125");
    writes(9, 0xFF12, "write technician 0xFF12");
    masks(9, 0xFF00, 0x00FF, "mask write of the technician: (0xFF12 and 0xFF00) or 0x00FF");
    reads(9, WORDS(65535), "technician 65535");
    writes(205, 0xE001, "update");
    refused_by(0xC0, 205, 0xE001, "code 0xC0, the journal is full: EMBBADEXC");
    writes(205, 0xE002, "mode off");
    reads_floats(210, FLOATS(-0.125f, 1.125f), "sensor 2: coefficients -0.125, 1.125");
    reads_floats(230, FLOATS(8.875f), "oxygen -0.125 + (1.125 × 8)");
    reads(8, WORDS(3), "3 entries in use");
}

/* The two words of a float, as entries are printed. */
static void print_float(float value) {
    uint32_t bits;
    memcpy(&bits, &value, sizeof bits);
    printf(" %04x %04x", bits >> 16, bits & 0xFFFF);
}

/* A calibration by the point (8 + k, y), whose slope is 1 to 31/16: every float is exact. Of its entry words 1 to 23 are printed. */
static void calibrates(int sensor, int k, int refusal) {
    uint16_t none[MODBUS_MAX_READ_REGISTERS];
    int base = 100 * sensor;
    float slope = (16 + k % 16) / 16.0f, x1 = 8 + k, y1 = x1 * slope;
    writes(base + 5, 0xE000, "mode on");
    writes(base + 6, 1, "method: one point");
    writes_float(base + 16, x1, "x1");
    writes_float(base + 18, y1, "y1");
    reads_floats(base + 16, FLOATS(x1, y1), "the point");
    refused(modbus_read_registers(line, 0, 30, none), refusal, "30 registers");
    writes(base + 5, 0xE001, "update");
    reads_floats(base + 10, FLOATS(0, slope), "coefficients");
    writes(base + 5, 0xE002, "mode off");
    reads(base, WORDS(sensor, 0x6955, 0xB900, 0, 0, 0), "its number, last calibration 1767225600, next 0, mode off");
    printf("entry %04x 0001 0000 6955 b900", sensor);
    float words[] = {0, slope, 0, x1, y1, 0, 0, 0, 0};
    for (size_t i = 0; i < sizeof words / sizeof *words; i++) print_float(words[i]);
    printf("\n");
}

static void rounds(int sensor, int count, int refusal) {
    for (int k = 0; k < count; k++) calibrates(sensor, k, refusal);
    printf("asked %d\n", asked);
}

int main(int argc, char **argv) {
    if (argc == 2 && strcmp(argv[1], "floats") == 0) {
        uint16_t got[2];
        modbus_set_float_abcd(1.0f, got);
        printf("version %s: 1.0 becomes 0x%04X 0x%04X\n", LIBMODBUS_VERSION_STRING, got[0], got[1]);
        return 0;
    }
    bool in_rounds = argc == 6 && strcmp(argv[1], "rounds") == 0;
    if (argc != 3 && !in_rounds) return 2;
    line = modbus_new_rtu(argv[2], 19200, 'N', 8, 2); /* a pseudo-terminal has no parity */
    if (!line || modbus_set_slave(line, ADDRESS) == -1 || modbus_connect(line) == -1) {
        printf("FAILED no connection: %s\n", modbus_strerror(errno));
        return 1;
    }
    modbus_set_response_timeout(line, 5, 0);
    if (in_rounds) {
        rounds(atoi(argv[3]), atoi(argv[4]), strcmp(argv[5], "radio") == 0 ? EMBXILVAL : EMBXILADD);
    } else {
        if (strcmp(argv[1], "before") == 0) {
            floats();
            map();
            writing();
            refusing();
            calibration();
        } else {
            powered_up();
            full();
        }
        reads(4, WORDS(asked, 0, refusals), "good, bad and refused frames are counted");
    }
    modbus_close(line);
    modbus_free(line);
    return failed;
}
