/*
 * The control book: calibrations, the words that they are journalled by, and the frames that make them. Written from docs/ARCHIVE.md and
 * docs/REGISTERS.md; no code of the library.
 */
#include <stdbool.h>
#include <stddef.h>
#include <stdint.h>

#define CAPACITY 5
#define WORDS (64 + 24 * CAPACITY)
#define STORES 27
#define PLANS 8
#define ADDRESS 1

/* By method 0 the values are the coefficients, by methods 1 and 2 the points x1, y1, x2, y2. */
typedef struct { uint16_t sensor, method, technician; uint32_t time; float values[4]; } Calibration;

/* The calibrations of a volume that a fresh sonde began, in the order in which they were accepted. */
typedef struct { int used; Calibration entries[CAPACITY]; } Book;

typedef struct { uint16_t at, word; } Store;
typedef struct { size_t length; uint8_t bytes[24]; } Frame;

/* A plan fills a volume: calibrations 0..CAPACITY - 1, and one more that is refused. Together the plans have each method of each sensor as the first
 * entry of a chain and as a later one. */
Calibration planned(int plan, int i);

/* The coefficients that a calibration puts in force. */
void book_coefficients(const Calibration *c, float coefficients[3]);

/* The words in use: the header and the entries. How many they are. */
size_t book_words(const Book *book, uint16_t words[WORDS]);

/* The stores of the next entry's append, in the order that document 02 fixes. */
void book_stores(const Book *book, const Calibration *c, Store stores[STORES]);

/* A sensor's registers 1..2 and 10..15 once mode is off: last calibration and the coefficients in force. */
void book_in_force(const Book *book, int sensor, uint16_t words[8]);

/* Fills the free words with others than the append will store. */
void book_garbage(const Store stores[STORES], int used, uint16_t volume[WORDS]);

/* The frames of a calibration, of which the last is the update; how many they are. */
int calibration_frames(const Calibration *c, Frame frames[10]);

Frame read_frame(uint16_t at, uint16_t count);
Frame write_frame(uint16_t at, uint16_t word);
Frame write_float_frame(uint16_t at, float value);

/* Appends the CRC-16 of Modbus. */
void seal(Frame *frame);
