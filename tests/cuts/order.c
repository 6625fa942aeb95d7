/*
 * The order in which the compiled library stores. A call that stores is made in a process of its own, which shares the volume and is followed instruction
 * by instruction; what is free in the volume differs from what will be stored, so that every store can be seen. Frames that append nothing are made in a
 * process that can't write the volume.
 *
 * It prints how many updates it followed, their storing instructions, the appends of n stores, the frames that append nothing, the places where a salvage
 * was cut, and the instructions that were followed. Exit status 1 where a store is out of order, 77 where processes can't be followed here.
 */
#include <errno.h>
#include <signal.h>
#include <stdio.h>
#include <stdlib.h>
#include <string.h>
#include <sys/mman.h>
#include <sys/ptrace.h>
#include <sys/wait.h>
#include <unistd.h>

#include "sonde.h"
#include "trace.h"

#define SKIPPED 77

/* What the process of a call shares with this one: the volume, in pages of its own, and what comes back. */
static uint16_t *volume;
static struct { SondeFrame answered; uint8_t reply[SONDE_REPLY_BYTES]; SondeSalvage salvage; } *back;

static Sonde sonde;
static long steps;
static int others; /* frames that append nothing */

/* The arguments of the call that is followed. */
static Frame frame;
static uint32_t clock_now;
static SondeEntry entry;
static size_t stores;

static void fail(const char *what) {
    printf("FAILED: %s\n", what);
    exit(1);
}

static void call_frame(void) {
    back->answered =
        sonde_frame(sonde, frame.bytes, frame.length, back->reply, sizeof back->reply, volume, WORDS, clock_now, false, SONDE_PORT_SERIAL);
}

static void call_append(void) { sonde_append(volume, WORDS, entry, stores); }
static void call_salvage(void) { back->salvage = sonde_salvage(volume, WORDS); }

/* Makes a call and looks at the volume after each of its instructions. */
static void follow(void (*call)(void), Trail *t, bool (*holds)(Trail *)) {
    fflush(stdout);
    pid_t pid = fork();
    if (pid == 0) {
        if (ptrace(PTRACE_TRACEME, 0, NULL, NULL) != 0) _exit(SKIPPED);
        raise(SIGSTOP);
        call();
        _exit(0);
    }
    int status = -1;
    if (pid < 0 || waitpid(pid, &status, 0) != pid) fail(strerror(errno));
    bool right = true;
    for (; right && WIFSTOPPED(status); steps++) {
        status = step(pid);
        right = status != -1 && holds(t);
    }
    if (!right) kill(pid, SIGKILL);
    if (WIFEXITED(status) && WEXITSTATUS(status) == SKIPPED) exit(SKIPPED);
    if (!right || !WIFEXITED(status) || WEXITSTATUS(status) != 0) fail("the call that was followed");
}

/* Holds the reply to an exception's code, 0 for none or -1 for no reply, and takes the sonde over. */
static void take(int code) {
    const SondeFrame *a = &back->answered;
    int found = a->length == 0 ? -1 : back->reply[1] & 0x80 ? back->reply[2] : 0;
    if (a->number != SONDE_OK || found != code) {
        printf("FAILED: number %u, code %d where %d was due\n", a->number, found, code);
        exit(1);
    }
    sonde = a->sonde;
}

/* A frame that appends nothing: no instruction of it stores into the volume, not even what is there. */
static void ask(const Frame *f, uint32_t now, int code) {
    frame = *f;
    clock_now = now;
    fflush(stdout);
    pid_t pid = fork();
    if (pid == 0) {
        if (mprotect(volume, 2 * WORDS, PROT_READ) != 0) _exit(1);
        call_frame();
        _exit(0);
    }
    int status = -1;
    if (pid < 0 || waitpid(pid, &status, 0) != pid) fail(strerror(errno));
    if (WIFSIGNALED(status) && WTERMSIG(status) == SIGSEGV) fail("a frame that appends nothing stores into the volume");
    if (status != 0) fail("a frame doesn't return");
    take(code);
}

static void begin(Book *book) {
    book->used = 0;
    SondeMade made = sonde_begin(sonde_fresh(ADDRESS).sonde, volume, WORDS);
    if (made.number != SONDE_OK) fail("begin");
    sonde = made.sonde;
}

/* The frames before the update, which is left for the caller. */
static Frame prepare(const Calibration *c) {
    Frame frames[10];
    int n = calibration_frames(c, frames);
    for (int i = 0; i < n - 1; i++, others++) ask(&frames[i], 0, 0);
    return frames[n - 1];
}

/* An accepted calibration, whose update is followed; its storing instructions. */
static int calibrate(Book *book, const Calibration *c) {
    Store due[STORES];
    Frame update = prepare(c);
    book_stores(book, c, due);
    book_garbage(due, book->used, volume);
    Trail t = trail(volume, due, STORES);
    frame = update;
    clock_now = c->time;
    follow(call_frame, &t, in_order);
    if (t.done != STORES) fail("stores are missing at the end of a frame");
    take(0);
    book->entries[book->used++] = *c;
    return t.instructions;
}

/* Each plan: updates until the journal is full, and one more. */
static void updates(int *count, int *instructions) {
    for (int plan = 0; plan < PLANS; plan++) {
        Book book;
        begin(&book);
        for (int i = 0; i < CAPACITY; i++, ++*count) {
            Calibration c = planned(plan, i);
            *instructions += calibrate(&book, &c);
        }
        Calibration c = planned(plan, CAPACITY);
        Frame update = prepare(&c);
        ask(&update, c.time, 0xC0);
        others++;
    }
}

static Frame of_bytes(size_t n, const uint8_t *bytes) {
    Frame f = {n, {0}};
    memcpy(f.bytes, bytes, n);
    seal(&f);
    return f;
}

#define BYTES(...) of_bytes(sizeof((const uint8_t[]){__VA_ARGS__}), (const uint8_t[]){__VA_ARGS__})

/* Frames of all kinds that append nothing, in a volume with two entries, and what they are answered by. */
static void frames_without_entry(void) {
    Frame broken = write_frame(105, 0xE001);
    broken.bytes[7] ^= 1;
    const struct { Frame frame; int code; } frames[] = {
        {read_frame(0, 10), 0},
        {read_frame(100, 8), 0},
        {read_frame(10, 1), 2},
        {write_frame(9, 7), 0},
        {BYTES(ADDRESS, 22, 0, 9, 0, 0xF0, 0x12, 0x34), 0},
        {write_frame(205, 0xE001), 0x92}, /* mode is off */
        {write_frame(106, 1), 0x92},
        {write_frame(105, 0xE000), 0},
        {write_frame(105, 0xE003), 0x84},
        {write_frame(100, 1), 0xC2},
        {write_frame(110, 1), 0x80},
        {write_float_frame(112, 100.0f), 0},
        {write_frame(105, 0xE001), 0x97}, /* outside the limits */
        {write_frame(106, 1), 0},
        {write_frame(105, 0xE001), 0x97}, /* x1 = 0 */
        {write_float_frame(116, 8.0f), 0},
        {write_float_frame(103, 8.0f), 0}, /* next calibration */
        {broken, -1},
        {BYTES(ADDRESS), -1},
        {BYTES(ADDRESS + 1, 6, 0, 105, 0xE0, 0x01), -1}, /* another's */
        {BYTES(0, 6, 0, 105, 0xE0, 0x01), -1},           /* refused, and at address 0 */
        {BYTES(ADDRESS, 0x44, 1), 1},
        {BYTES(ADDRESS, 6, 0, 105), 3},
        {write_frame(105, 0xE002), 0},
    };
    Book book;
    begin(&book);
    for (int i = 0; i < 2; i++) {
        Calibration c = planned(6, i);
        calibrate(&book, &c);
    }
    for (size_t i = 0; i < sizeof frames / sizeof *frames; i++, others++) ask(&frames[i].frame, 1000, frames[i].code);
}

static SondeEntry entry_of(const Calibration *c) {
    float k[3];
    const float *v = c->values;
    book_coefficients(c, k);
    SondeEntry e = {c->sensor, c->method, c->technician, {k[0], k[1], k[2], c->time}, {0.0f, 0.0f, 0.0f, 0.0f}};
    if (c->method != 0) e.points = (SondePoints){v[0], v[1], v[2], v[3]};
    return e;
}

/* The volume of a book, and in its free words the garbage that an append changes. */
static void lay_out(const Book *book, const Store *due) {
    book_words(book, volume);
    book_garbage(due, book->used, volume);
}

/* sonde_append with every number of stores, and with more than there are. */
static void cut_appends(int plan, int *count) {
    Book book = {0};
    Store due[STORES];
    for (int i = 0; i < CAPACITY; i++) {
        Calibration c = planned(plan, i);
        book_stores(&book, &c, due);
        entry = entry_of(&c);
        for (stores = 0; stores <= STORES + 1; stores++, ++*count) {
            int n = stores < STORES ? (int)stores : STORES;
            lay_out(&book, due);
            Trail t = trail(volume, due, n);
            follow(call_append, &t, in_order);
            if (t.done != n) fail("stores are missing at the end of an append");
        }
        book.entries[book.used++] = c;
    }
}

static uint16_t mended[WORDS];

/* A salvage that is cut: whatever it has stored so far, another salvage leaves the volume that is due. */
static bool can_be_salvaged(Trail *t) {
    if (memcmp(t->volume, t->shadow, sizeof t->shadow) == 0) return true;
    uint16_t copy[WORDS];
    memcpy(copy, t->volume, sizeof copy);
    memcpy(t->shadow, t->volume, sizeof t->shadow);
    t->instructions++;
    return sonde_salvage(copy, WORDS).number == SONDE_OK && memcmp(copy, mended, sizeof copy) == 0;
}

/* Salvages of appends that were cut behind the link and behind the last. */
static void cut_salvages(int plan, int *instructions) {
    Book book = {0};
    Store due[STORES];
    for (int i = 0; i < CAPACITY; i++) {
        Calibration c = planned(plan, i);
        book_stores(&book, &c, due);
        for (int n = 25; n <= 26; n++) {
            lay_out(&book, due);
            for (int k = 0; k < n; k++) volume[due[k].at] = due[k].word;
            memcpy(mended, volume, sizeof mended);
            book_words(&book, mended);
            Trail t = trail(volume, NULL, 0);
            follow(call_salvage, &t, can_be_salvaged);
            const SondeSalvage *s = &back->salvage;
            if (s->number != SONDE_OK || s->changed != n - 24 || memcmp(volume, mended, sizeof mended) != 0) fail("salvage");
            *instructions += t.instructions;
        }
        book.entries[book.used++] = c;
    }
}

static void *shared(size_t bytes) {
    void *memory = mmap(NULL, bytes, PROT_READ | PROT_WRITE, MAP_SHARED | MAP_ANONYMOUS, -1, 0);
    if (memory == MAP_FAILED) fail(strerror(errno));
    return memory;
}

int main(void) {
    alarm(900);
    stay_on_one_core();
    volume = shared(2 * WORDS);
    back = shared(sizeof *back);
    int count = 0, instructions = 0, appends = 0, mending = 0;
    updates(&count, &instructions);
    frames_without_entry();
    cut_appends(0, &appends);
    cut_appends(3, &appends);
    cut_salvages(3, &mending);
    cut_salvages(6, &mending);
    printf("%d %d %d %d %d %ld\n", count, instructions, appends, others, mending, steps);
    return 0;
}
