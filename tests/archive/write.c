/*
 * write FILE: a journal of every sensor by every method that it has, in a file as ./serve keeps it: the words in order, each with its high byte first.
 *
 * before-technician.volume was written by this program with the library of commit fa47965 (version 0.1.0), the last one before document 02's wish 3, when
 * word 3 of an entry had to be 0. It stays as that library wrote it.
 */
#include "client.h"

#define DAY 86400

/* Eleven of twelve entries; the chains of sensors 1, 2 and 4 have three each, that of sensor 3 has two. */
static const Calibrated journal[] = {
    {2, 2, 1767225600, {8.0f, 9.0f}},
    {1, 1, 1767225600 + DAY, {1000.0f, 1250.0f}},
    {3, 0, 1767225600 + 2 * DAY, {1.5f, 100.0f, 2.0f}},
    {4, 2, 1767225600 + 3 * DAY, {3.0f, 1.0f}},
    {1, 0, 1767225600 + 4 * DAY, {-3.7f, 1.0137f}},
    {2, 0, 1767225600 + 5 * DAY, {-0.125f, 0.97f}},
    {4, 1, 1767225600 + 6 * DAY, {2.0f, 5.0f}},
    {3, 0, 1767225600 + 7 * DAY, {0.0123f, 12.5f, 14.51f}},
    {1, 2, 1767225600 + 8 * DAY, {1398.7f, 1413.0f, 84.3f, 83.1f}},
    {2, 1, 1767225600 + 9 * DAY, {3.0f, 3.5f}},
    {4, 0, 1767225600 + 10 * DAY, {0.1f, 1.1f}},
};

int main(int count, char **arguments) {
    FILE *file = count == 2 ? fopen(arguments[1], "wb") : NULL;
    if (file == NULL) return 2;
    memset(volume, 0xA5, sizeof volume); /* free words hold anything */
    SondeMade made = sonde_begin(sonde_fresh(1).sonde, volume, WORDS);
    sonde = made.sonde;
    bool done = made.number == SONDE_OK;
    for (size_t i = 0; i < sizeof journal / sizeof *journal; i++) done = done && calibrate(&journal[i]);
    for (int i = 0; i < WORDS; i++) fprintf(file, "%c%c", volume[i] >> 8, volume[i] & 0xFF);
    return fclose(file) == 0 && done ? 0 : 1;
}
