/*
 * kill FOLDER HOST: calibrations over the standard input of hosts/mapped, which is killed at every instruction that stores into its volume.
 * kill FOLDER HOST CUT: appends by the program CUT, which is killed behind every one of the 27 stores.
 *
 * After each kill the host is started again, and its volume and its registers are compared with the control book. It prints how many kills there were, and
 * how many of them at a storing instruction. Exit status 1 where a comparison fails.
 */
#include <errno.h>
#include <fcntl.h>
#include <signal.h>
#include <stdarg.h>
#include <stdio.h>
#include <stdlib.h>
#include <string.h>
#include <sys/mman.h>
#include <sys/ptrace.h>
#include <sys/stat.h>
#include <sys/syscall.h>
#include <sys/user.h>
#include <sys/wait.h>
#include <unistd.h>

#include "trace.h"

/* Where the host is killed. A stage between ARRIVED and STORED is the number of storing instructions that are made. */
enum { ARRIVED = 0 /* the request has been read */, STORED = 1000 /* the reply is about to be written */, ANSWERED /* it has been read */ };

typedef struct { pid_t pid; FILE *to, *from, *said; } Host;

static const char *host_path, *cut_path;
static char file[4096], context[200];
static uint16_t *volume; /* the file */
static bool watching;    /* the processor can stop a process behind a store */

static void fail(const char *format, ...) {
    va_list arguments;
    va_start(arguments, format);
    printf("FAILED: %s: ", context);
    vprintf(format, arguments);
    printf("\n");
    exit(1);
}

/* ---- the host as a process ---- */

static Host start(void) {
    int to[2], from[2], said[2];
    if (pipe2(to, O_CLOEXEC) != 0 || pipe2(from, O_CLOEXEC) != 0 || pipe2(said, O_CLOEXEC) != 0) fail("pipe: %s", strerror(errno));
    pid_t pid = fork();
    if (pid == 0) {
        char entries[12];
        snprintf(entries, sizeof entries, "%d", CAPACITY);
        dup2(to[0], 0);
        dup2(from[1], 1);
        dup2(said[1], 2);
        execl(host_path, host_path, file, entries, (char *)NULL);
        _exit(127);
    }
    if (pid < 0) fail("fork: %s", strerror(errno));
    close(to[0]);
    close(from[1]);
    close(said[1]);
    return (Host){pid, fdopen(to[1], "w"), fdopen(from[0], "r"), fdopen(said[0], "r")};
}

/* What the host says on standard error as it starts. */
static void expect_said(Host *h, const char *format, ...) {
    char due[100], line[200] = "";
    va_list arguments;
    va_start(arguments, format);
    vsnprintf(due, sizeof due, format, arguments);
    va_end(arguments);
    if (fgets(line, sizeof line, h->said) == NULL) strcpy(line, "nothing");
    line[strcspn(line, "\n")] = 0;
    if (strcmp(line, due) != 0) fail("the host says '%s', and '%s' is due", line, due);
}

/* The status that the host ends with, at the end of its input or by a kill. */
static int ended(Host *h) {
    int status = 0;
    fclose(h->to);
    do {
        if (waitpid(h->pid, &status, 0) != h->pid) fail("wait: %s", strerror(errno));
    } while (WIFSTOPPED(status));
    fclose(h->from);
    fclose(h->said);
    return status;
}

static void finish(Host *h) {
    if (ended(h) != 0) fail("the host doesn't end with status 0");
}

static void kill_host(Host *h) {
    kill(h->pid, SIGKILL);
    int status = ended(h);
    if (!WIFSIGNALED(status) || WTERMSIG(status) != SIGKILL) fail("the host was gone before it was killed");
}

static void request(Host *h, uint32_t clock, const Frame *f) {
    fprintf(h->to, "%u ", clock);
    for (size_t i = 0; i < f->length; i++) fprintf(h->to, "%02X", f->bytes[i]);
    fprintf(h->to, "\n");
    if (fflush(h->to) != 0) fail("the host takes no request");
}

static Frame reply(Host *h) {
    char line[600], *at = line;
    unsigned byte;
    Frame f = {0};
    if (fgets(line, sizeof line, h->from) == NULL) fail("the host gives no reply");
    for (; f.length < sizeof f.bytes && sscanf(at, "%2x", &byte) == 1; at += 2) f.bytes[f.length++] = (uint8_t)byte;
    return f;
}

/* Whether a write was answered as carried out, or by this exception. */
static void expect_written(Host *h, const Frame *f, int code) {
    Frame due = {6, {0}}, found = reply(h);
    memcpy(due.bytes, f->bytes, 6);
    if (code != 0) due = (Frame){3, {f->bytes[0], f->bytes[1] | 0x80, (uint8_t)code}};
    seal(&due);
    if (found.length != due.length || memcmp(found.bytes, due.bytes, due.length) != 0) fail("another reply to an update or a write");
}

/* ---- the comparison with the book ---- */

static void compare_words(const Book *book) {
    uint16_t due[WORDS];
    size_t n = book_words(book, due);
    for (size_t i = 0; i < n; i++)
        if (volume[i] != due[i]) fail("word %zu is %04X, by the book %04X", i, volume[i], due[i]);
}

static void compare_registers(Host *h, uint16_t at, int count, const uint16_t *words) {
    Frame ask = read_frame(at, (uint16_t)count), due = {3, {ADDRESS, 3, (uint8_t)(2 * count)}};
    for (int i = 0; i < count; i++) {
        due.bytes[due.length++] = (uint8_t)(words[i] >> 8);
        due.bytes[due.length++] = words[i] & 0xFF;
    }
    seal(&due);
    request(h, 0, &ask);
    Frame found = reply(h);
    if (found.length != due.length || memcmp(found.bytes, due.bytes, due.length) != 0) fail("registers %d to %d aren't the book's", at, at + count - 1);
}

/* The host is started again: it salvages and powers up, and what it then has is the book's. */
static Host restarted(const Book *book, int changed) {
    Host h = start();
    expect_said(&h, "mapped: salvage changed %d words, %d entries in use", changed, book->used);
    compare_registers(&h, 7, 2, (const uint16_t[]){CAPACITY, (uint16_t)book->used});
    for (int s = 1; s <= 4; s++) {
        uint16_t words[8];
        book_in_force(book, s, words);
        compare_registers(&h, (uint16_t)(100 * s + 1), 2, words);
        compare_registers(&h, (uint16_t)(100 * s + 10), s == 3 ? 6 : 4, words + 2);
    }
    compare_words(book);
    return h;
}

/* The frames before the update; the update is left for the caller. */
static Frame prepare(Host *h, const Calibration *c) {
    Frame frames[10];
    int n = calibration_frames(c, frames);
    for (int i = 0; i < n - 1; i++) {
        request(h, 0, &frames[i]);
        expect_written(h, &frames[i], 0);
    }
    return frames[n - 1];
}

/* A calibration to its end, accepted where the book has room. */
static void calibrate(Host *h, Book *book, const Calibration *c) {
    bool room = book->used < CAPACITY;
    Frame update = prepare(h, c);
    request(h, c->time, &update);
    expect_written(h, &update, room ? 0 : 0xC0);
    if (room) book->entries[book->used++] = *c;
    compare_words(book);
}

/* What salvage changes once so many stores are made: the link and the last, until the count makes them right. */
static int changed_by_salvage(int stores) { return stores == 25 || stores == 26 ? stores - 24 : 0; }

/* The book after a cut: it has the entry exactly when the count was stored. */
static Book left_by(Book book, const Calibration *c, int stores) {
    if (stores == STORES) book.entries[book.used++] = *c;
    return book;
}

/* The calibration that comes after a cut: the same again, or the next of the plan. */
static int following(int i, int stores) { return stores == STORES ? i + 1 : i; }

/* After a kill: the host is as the book has it, and goes on. */
static void compare_and_go_on(const Book *book, int plan, int i, int stores) {
    Calibration c = planned(plan, i), next = planned(plan, following(i, stores));
    Book left = left_by(*book, &c, stores);
    Host h = restarted(&left, changed_by_salvage(stores));
    calibrate(&h, &left, &next);
    finish(&h);
}

/* ---- the host followed ---- */

static void expect_stop(pid_t pid, int signal) {
    int status = 0;
    if (waitpid(pid, &status, 0) != pid || !WIFSTOPPED(status) || WSTOPSIG(status) != signal) fail("the host isn't where it is awaited: status %x", status);
}

static void stop(pid_t pid) {
    if (ptrace(PTRACE_SEIZE, pid, NULL, PTRACE_O_TRACESYSGOOD | PTRACE_O_EXITKILL) != 0) fail("ptrace: %s", strerror(errno));
    ptrace(PTRACE_INTERRUPT, pid, NULL, NULL);
    expect_stop(pid, SIGTRAP);
}

/* Goes on to where a system call is entered (PTRACE_SYSCALL_INFO_ENTRY) or left (_EXIT). */
static void go_to(pid_t pid, unsigned long call, int side) {
    struct __ptrace_syscall_info info;
    unsigned long number = ~0ul;
    do {
        ptrace(PTRACE_SYSCALL, pid, NULL, NULL);
        expect_stop(pid, SIGTRAP | 0x80);
        if (ptrace(PTRACE_GET_SYSCALL_INFO, pid, sizeof info, &info) <= 0) fail("ptrace: %s", strerror(errno));
        if (info.op == PTRACE_SYSCALL_INFO_ENTRY) number = info.entry.nr;
    } while (number != call || info.op != side);
}

static bool set_debug(pid_t pid, int which, uintptr_t value) {
    return ptrace(PTRACE_POKEUSER, pid, offsetof(struct user, u_debugreg) + sizeof(long) * (size_t)which, value) == 0;
}

/* The processor stops the process behind the next store into 8 bytes at one of these addresses; none for no more. */
static bool watch(pid_t pid, const uintptr_t *addresses, int count) {
    uintptr_t control = 0;
    bool set = true;
    for (int i = 0; i < count; i++) {
        const uintptr_t on = 1, writes = 1, eight_bytes = 2;
        set = set && set_debug(pid, i, addresses[i]);
        control |= on << (2 * i) | (writes | eight_bytes << 2) << (16 + 4 * i);
    }
    return set && set_debug(pid, 7, control);
}

/* Where the process has mapped the file. */
static uintptr_t mapping(pid_t pid) {
    char path[40], line[4200];
    uintptr_t address = 0;
    snprintf(path, sizeof path, "/proc/%d/maps", pid);
    FILE *maps = fopen(path, "r");
    while (maps != NULL && address == 0 && fgets(line, sizeof line, maps) != NULL)
        if (strstr(line, file) != NULL) address = strtoul(line, NULL, 16);
    if (address == 0) fail("the host hasn't mapped its file");
    fclose(maps);
    return address;
}

/* Whether a store is seen that way on this machine: else every instruction up to the first store is stepped, which takes minutes. */
static bool can_watch(void) {
    static volatile uint64_t word;
    pid_t pid = fork();
    if (pid == 0) {
        ptrace(PTRACE_TRACEME, 0, NULL, NULL);
        raise(SIGSTOP);
        word = 1;
        _exit(0);
    }
    int status = 0;
    waitpid(pid, &status, 0);
    bool set = watch(pid, (const uintptr_t[]){(uintptr_t)&word}, 1);
    ptrace(PTRACE_CONT, pid, NULL, NULL);
    waitpid(pid, &status, 0);
    bool seen = WIFSTOPPED(status);
    kill(pid, SIGKILL);
    if (seen) waitpid(pid, &status, 0);
    return set && seen;
}

/* Goes on to the first store: into the beginning, the middle or the end of the entry, or into the words around the count. */
static void go_to_first_store(pid_t pid, Trail *t) {
    uintptr_t words = mapping(pid), entry = words + 2u * t->due[0].at;
    if (!watch(pid, (const uintptr_t[]){entry, entry + 16, entry + 40, words}, 4)) fail("the debug registers: %s", strerror(errno));
    ptrace(PTRACE_CONT, pid, NULL, NULL);
    expect_stop(pid, SIGTRAP);
    watch(pid, NULL, 0);
    if (!in_order(t) || t->instructions != 1) fail("the first store");
}

/* Follows the host up to its n-th storing instruction. */
static void go_to_store(pid_t pid, Trail *t, int n) {
    if (watching) go_to_first_store(pid, t);
    while (t->instructions < n) {
        int status = step(pid);
        if (!WIFSTOPPED(status) || WSTOPSIG(status) != SIGTRAP) fail("the host ends before its stores do");
        if (!in_order(t)) fail("a store");
    }
}

/* The update's request, and a kill at this stage. */
static void kill_at(Host *h, const Calibration *c, const Frame *update, int stage, Trail *t) {
    bool accepted = t->count > 0;
    stop(h->pid);
    request(h, c->time, update);
    go_to(h->pid, SYS_read, PTRACE_SYSCALL_INFO_EXIT);
    if (stage > ARRIVED && stage < STORED) go_to_store(h->pid, t, stage);
    if (stage == STORED) go_to(h->pid, SYS_write, PTRACE_SYSCALL_INFO_ENTRY);
    if (stage == ANSWERED) {
        ptrace(PTRACE_DETACH, h->pid, NULL, NULL);
        expect_written(h, update, accepted ? 0 : 0xC0);
    }
    kill_host(h);
    if (stage >= STORED && accepted) { /* not followed: all stores at once */
        for (int i = 0; i < STORES; i++) t->shadow[t->due[i].at] = t->due[i].word;
        t->done = STORES;
    }
    if (memcmp(volume, t->shadow, sizeof t->shadow) != 0) fail("the volume isn't as it was when the host was killed");
}

static int after(int stage, const Trail *t) {
    if (stage < STORED && t->done == t->count) return STORED;
    return stage + 1;
}

/* ---- kills ---- */

/* The volume of a book; the garbage behind it is what the next append changes. */
static void lay_out(const Book *book, const Store *due) {
    book_words(book, volume);
    book_garbage(due, book->used, volume);
}

static void lay_out_for(const Book *book, const Calibration *c, Store due[STORES]) {
    if (book->used < CAPACITY) book_stores(book, c, due);
    lay_out(book, due);
}

/* One calibration of a plan, killed at every stage; how many kills, and how many of them at a storing instruction. */
static int kill_calibration(const Book *book, int plan, int i, int *storing) {
    Calibration c = planned(plan, i);
    Store due[STORES] = {{0, 0}};
    int kills = 0, count = book->used < CAPACITY ? STORES : 0;
    Trail t;
    for (int stage = ARRIVED; stage <= ANSWERED; stage = after(stage, &t), kills++) {
        snprintf(context, sizeof context, "plan %d, calibration %d, killed at stage %d", plan, i, stage);
        lay_out_for(book, &c, due);
        Host h = restarted(book, 0);
        Frame update = prepare(&h, &c);
        t = trail(volume, due, count);
        kill_at(&h, &c, &update, stage, &t);
        compare_and_go_on(book, plan, i, t.done);
        *storing += stage > ARRIVED && stage < STORED;
    }
    return kills;
}

static unsigned bits(float value) {
    unsigned b;
    memcpy(&b, &value, sizeof b);
    return b;
}

/* An append by CUT, which is killed behind so many stores. */
static void cut_append(const Calibration *c, int stores) {
    char words[12][16];
    float k[3], v[4] = {0};
    book_coefficients(c, k);
    if (c->method != 0) memcpy(v, c->values, sizeof v);
    const unsigned numbers[12] = {(unsigned)stores, c->sensor,   c->method,  c->technician, c->time,    bits(k[0]),
                                  bits(k[1]),       bits(k[2]), bits(v[0]), bits(v[1]),    bits(v[2]), bits(v[3])};
    char *arguments[15] = {(char *)cut_path, file};
    for (int i = 0; i < 12; i++) {
        snprintf(words[i], sizeof words[i], "%u", numbers[i]);
        arguments[2 + i] = words[i];
    }
    pid_t pid = fork();
    if (pid == 0) {
        execv(cut_path, arguments);
        _exit(127);
    }
    int status = 0;
    if (waitpid(pid, &status, 0) != pid || !WIFSIGNALED(status) || WTERMSIG(status) != SIGKILL) fail("the append isn't killed: status %x", status);
}

/* The same in the volume as it is, with a look at what is left; how many stores were made: none where there is no room. */
static int cut_behind(const Book *book, const Calibration *c, int n) {
    Store due[STORES];
    uint16_t expected[WORDS];
    int stores = book->used < CAPACITY ? n : 0;
    memcpy(expected, volume, sizeof expected);
    if (stores > 0) book_stores(book, c, due);
    for (int k = 0; k < stores; k++) expected[due[k].at] = due[k].word;
    cut_append(c, n);
    if (memcmp(volume, expected, sizeof expected) != 0) fail("the append has left other words");
    return stores;
}

/* One append of a plan, killed behind every store; after the salvage there is another one, killed behind another store. How many kills. */
static int kill_append(const Book *book, int plan, int i) {
    Calibration c = planned(plan, i);
    Store due[STORES] = {{0, 0}};
    for (int n = 0; n <= STORES; n++) {
        int again = (5 * n + i) % (STORES + 1);
        snprintf(context, sizeof context, "plan %d, append %d, killed behind %d stores, then %d", plan, i, n, again);
        lay_out_for(book, &c, due);
        int stores = cut_behind(book, &c, n), second = following(i, stores);
        Book left = left_by(*book, &c, stores);
        Host h = restarted(&left, changed_by_salvage(stores));
        finish(&h);
        Calibration next = planned(plan, second);
        compare_and_go_on(&left, plan, second, cut_behind(&left, &next, again));
    }
    return 2 * (STORES + 1);
}

/* ---- starts ---- */

static void map_file(void) {
    if (volume != NULL) munmap(volume, 2 * WORDS);
    int opened = open(file, O_RDWR);
    struct stat status;
    if (opened < 0 || fstat(opened, &status) != 0 || status.st_size != 2 * WORDS) fail("%s isn't the file that is due", file);
    volume = mmap(NULL, 2 * WORDS, PROT_READ | PROT_WRITE, MAP_SHARED, opened, 0);
    if (volume == MAP_FAILED) fail("mmap: %s", strerror(errno));
    close(opened);
}

/* The first start, beside what a cut has left of an earlier one. */
static void begin(void) {
    char beside[sizeof file + 4];
    snprintf(context, sizeof context, "the first start");
    unlink(file);
    snprintf(beside, sizeof beside, "%s.new", file);
    FILE *half = fopen(beside, "w");
    if (half == NULL || fputs("half begun", half) < 0 || fclose(half) != 0) fail("%s can't be written", beside);
    Host h = start();
    expect_said(&h, "mapped: begun, capacity %d", CAPACITY);
    finish(&h);
    if (access(beside, F_OK) == 0) fail("%s is left", beside);
    map_file();
    compare_words(&(Book){0});
}

/* A fault that no salvage mends: the host says so, ends with status 1, and leaves the file. */
static void beyond_salvage(void) {
    uint16_t before[WORDS];
    snprintf(context, sizeof context, "a volume beyond salvage");
    volume[3] = 1;
    memcpy(before, volume, sizeof before);
    Host h = start();
    expect_said(&h, "mapped: salvage: refused by number 8");
    int status = ended(&h);
    if (!WIFEXITED(status) || WEXITSTATUS(status) != 1) fail("another exit status: %x", status);
    if (memcmp(volume, before, sizeof before) != 0) fail("the file was changed");
}

/* Every calibration of every plan, killed by either way; how many kills, and how many of them at a storing instruction. */
static int kill_all(int *storing) {
    int kills = 0;
    for (int plan = 0; plan < PLANS; plan++) {
        begin();
        Book book = {0};
        for (int i = 0; i <= CAPACITY; i++) {
            kills += cut_path == NULL ? kill_calibration(&book, plan, i, storing) : kill_append(&book, plan, i);
            if (i < CAPACITY) book.entries[book.used++] = planned(plan, i);
        }
        beyond_salvage();
    }
    return kills;
}

int main(int count, char **arguments) {
    if (count < 3 || count > 4) return 2;
    snprintf(file, sizeof file, "%s/volume", arguments[1]);
    host_path = arguments[2];
    cut_path = count == 4 ? arguments[3] : NULL;
    signal(SIGPIPE, SIG_IGN);
    alarm(900);
    stay_on_one_core();
    watching = cut_path == NULL && can_watch();
    int storing = 0, kills = kill_all(&storing);
    printf("%d %d\n", kills, storing);
    return 0;
}
