/*
 * A host that keeps the volume where sonde_frame stores into it, as a board does with FRAM or battery-backed RAM. Here a mapped file takes the place of
 * that memory: no copy is written and no file renamed, the words of the mapping are the volume.
 *
 *     mapped FILE [ENTRIES]
 *
 * begins FILE with room for so many entries (1000) where there is none. Else it salvages the volume, which a cut in the middle of an append may have left
 * half written, and goes on with it. Each line of standard input is a request: the clock in decimal, a space, an RTU frame in hexadecimal digits. Its reply
 * is a line of hexadecimal digits on standard output, or "-" for none. Exit status 1 where the volume can't be served, 2 for a line of another form.
 *
 *     cc -std=c11 -D_GNU_SOURCE -Iinclude hosts/mapped/mapped.c target/staticlib/libsonde.a
 *
 * The file has the words as this machine has them in memory: it is the board's memory, not a file for the archive, whose words are written high byte first.
 *
 * What to mind on a board:
 * - The library is proved to leave, after n stores of an append, what include/sonde.h says of sonde_append. In which order compiled code stores is no part
 *   of that: compilers join stores and change their order. tests/cuts follows the code instruction by instruction, and holds it for this library as it is
 *   built today; another compiler or target needs the same.
 * - The stores have to reach the memory in their order. A write-back cache in front of it may change the order: map the volume uncached or write-through.
 * - A word has to be stored whole or not at all. Where 16 bits are written in two cycles, the supply has to last for both.
 * - A file does all this while the machine runs, also where this process is killed. A PC that loses its power may have written the file's blocks in any
 *   order: there, write a copy and rename it, as hosts/serve does.
 */
#include <ctype.h>
#include <errno.h>
#include <fcntl.h>
#include <libgen.h>
#include <limits.h>
#include <stdio.h>
#include <stdlib.h>
#include <string.h>
#include <sys/mman.h>
#include <sys/stat.h>
#include <unistd.h>

#include "sonde.h"

#define ADDRESS 1
#define ENTRIES 1000
#define FRAME_ROOM 257
#define IN_USE 2 /* the word that counts the entries in use: an append stores it last */

typedef struct { uint16_t *words; size_t count; } Volume;

static void end(int status, const char *what, const char *why) {
    fprintf(stderr, "mapped: %s: %s\n", what, why);
    exit(status);
}

static void end_by_number(const char *call, uint8_t number) {
    char why[32];
    snprintf(why, sizeof why, "refused by number %u", number);
    end(1, call, why);
}

/* Maps a file, a new one with so many words. Its room is taken at once, since no store may find the disk full. */
static Volume mapped(const char *path, int flags, size_t words) {
    int file = open(path, O_RDWR | flags, 0644);
    if (file < 0) end(1, path, strerror(errno));
    int refused = words > 0 ? posix_fallocate(file, 0, (off_t)(2 * words)) : 0;
    if (refused != 0) end(1, path, strerror(refused));
    struct stat status;
    if (fstat(file, &status) != 0) end(1, path, strerror(errno));
    Volume volume = {NULL, (size_t)status.st_size / 2};
    volume.words = mmap(NULL, 2 * volume.count, PROT_READ | PROT_WRITE, MAP_SHARED, file, 0);
    if (volume.words == MAP_FAILED) end(1, path, strerror(errno));
    close(file); /* the mapping stays */
    return volume;
}

/* On a board: nothing for FRAM; a barrier, and a cache written back, where there are such. */
static void make_safe(Volume volume) {
    if (msync(volume.words, 2 * volume.count, MS_SYNC) != 0) end(1, "msync", strerror(errno));
}

/* A name in a folder outlasts a cut once the folder is written. */
static void make_name_safe(const char *path) {
    char copy[PATH_MAX];
    snprintf(copy, sizeof copy, "%s", path);
    int folder = open(dirname(copy), O_RDONLY | O_DIRECTORY);
    if (folder < 0 || fsync(folder) != 0) end(1, path, strerror(errno));
    close(folder);
}

/*
 * The first start. Salvage mends a cut append, not a cut begin: so the journal is begun under another name and gets its own when it is whole. What a cut
 * leaves under the other name is written over. A board does the same with a word of its own beside the volume, set once begin is done.
 */
static Volume begun(const char *path, size_t entries, Sonde *sonde) {
    char beside[PATH_MAX];
    if (snprintf(beside, sizeof beside, "%s.new", path) >= (int)sizeof beside) end(1, path, strerror(ENAMETOOLONG));
    Volume volume = mapped(beside, O_CREAT | O_TRUNC, 64 + 24 * entries);
    SondeMade made = sonde_fresh(ADDRESS);
    if (made.number == SONDE_OK) made = sonde_begin(made.sonde, volume.words, volume.count);
    if (made.number != SONDE_OK) end_by_number("begin", made.number);
    make_safe(volume);
    if (rename(beside, path) != 0) end(1, path, strerror(errno));
    make_name_safe(path);
    fprintf(stderr, "mapped: begun, capacity %u\n", volume.words[1]);
    *sonde = made.sonde;
    return volume;
}

/* Every later start. Salvage comes first: power-up refuses a volume whose chains a cut left between two entries. */
static Volume found(const char *path, Sonde *sonde) {
    Volume volume = mapped(path, 0, 0);
    SondeSalvage salvage = sonde_salvage(volume.words, volume.count);
    if (salvage.number != SONDE_OK) end_by_number("salvage", salvage.number);
    make_safe(volume);
    fprintf(stderr, "mapped: salvage changed %u words, %u entries in use\n", salvage.changed, volume.words[IN_USE]);
    SondeMade made = sonde_power_up(ADDRESS, volume.words, volume.count);
    if (made.number != SONDE_OK) end_by_number("power-up", made.number);
    *sonde = made.sonde;
    return volume;
}

/* A request's clock and frame; whether the line has its form. A frame is cut off at 257 bytes: it is too long by then, and bad. */
static bool parsed(const char *line, uint32_t *clock, uint8_t *frame, size_t *length) {
    char *at;
    *clock = (uint32_t)strtoul(line, &at, 10);
    if (at == line || *at++ != ' ') return false;
    for (*length = 0; isxdigit((unsigned char)at[0]) && isxdigit((unsigned char)at[1]); at += 2) {
        const char digits[] = {at[0], at[1], 0};
        if (*length < FRAME_ROOM) frame[(*length)++] = (uint8_t)strtoul(digits, NULL, 16);
    }
    return *at == '\n';
}

static void answer(const uint8_t *reply, size_t length) {
    if (length == 0) printf("-");
    for (size_t i = 0; i < length; i++) printf("%02X", reply[i]);
    printf("\n");
    if (fflush(stdout) != 0) end(1, "standard output", strerror(errno));
}

static void serve(Sonde sonde, Volume volume) {
    uint8_t frame[FRAME_ROOM], reply[SONDE_REPLY_BYTES];
    char *line = NULL;
    size_t room = 0, length;
    uint32_t clock;
    while (getline(&line, &room, stdin) > 0) {
        if (!parsed(line, &clock, frame, &length)) end(2, "standard input", "a line that isn't a request");
        /* Here a board measures its sensors: sonde = sonde_measure(sonde, 1, true, conductivity(), temperature()).sonde, and so on. */
        uint16_t in_use = volume.words[IN_USE];
        SondeFrame f =
            sonde_frame(sonde, frame, length, reply, sizeof reply, volume.words, volume.count, clock, false, SONDE_PORT_SERIAL);
        if (f.number != SONDE_OK) end_by_number("frame", f.number);
        sonde = f.sonde;
        if (volume.words[IN_USE] != in_use) make_safe(volume); /* before the reply: what is answered is kept */
        answer(reply, f.length);
    }
    free(line);
}

int main(int count, char **arguments) {
    if (count < 2 || count > 3) end(2, "usage", "mapped FILE [ENTRIES]");
    size_t entries = count == 3 ? strtoul(arguments[2], NULL, 10) : ENTRIES;
    Sonde sonde;
    bool kept = access(arguments[1], F_OK) == 0;
    Volume volume = kept ? found(arguments[1], &sonde) : begun(arguments[1], entries, &sonde);
    serve(sonde, volume);
    return 0;
}
