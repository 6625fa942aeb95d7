/*
 * cut FILE STORES SENSOR METHOD TECHNICIAN TIME C1 C2 C3 X1 Y1 X2 Y2: makes so many stores of an append in the mapped volume FILE, and is killed right
 * behind them. Numbers are decimal; coefficients and points are the bits of their floats.
 */
#include <fcntl.h>
#include <signal.h>
#include <stdlib.h>
#include <string.h>
#include <sys/mman.h>
#include <sys/stat.h>
#include <unistd.h>

#include "sonde.h"

static float of_bits(const char *digits) {
    uint32_t bits = (uint32_t)strtoul(digits, NULL, 10);
    float value;
    memcpy(&value, &bits, sizeof value);
    return value;
}

int main(int count, char **a) {
    if (count != 14) return 2;
    int file = open(a[1], O_RDWR);
    struct stat status;
    if (file < 0 || fstat(file, &status) != 0) return 2;
    uint16_t *words = mmap(NULL, (size_t)status.st_size, PROT_READ | PROT_WRITE, MAP_SHARED, file, 0);
    if (words == MAP_FAILED) return 2;
    SondeEntry entry = {(uint16_t)atoi(a[3]), (uint16_t)atoi(a[4]), (uint16_t)atoi(a[5]),
                        {of_bits(a[7]), of_bits(a[8]), of_bits(a[9]), (uint32_t)strtoul(a[6], NULL, 10)},
                        {of_bits(a[10]), of_bits(a[11]), of_bits(a[12]), of_bits(a[13])}};
    sonde_append(words, (size_t)status.st_size / 2, entry, strtoul(a[2], NULL, 10));
    kill(getpid(), SIGKILL);
    return 1;
}
