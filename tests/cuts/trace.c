#include "trace.h"

#include <sched.h>
#include <stdio.h>
#include <string.h>
#include <sys/ptrace.h>
#include <sys/wait.h>

Trail trail(const uint16_t *volume, const Store *due, int count) {
    Trail t = {volume, due, count, 0, 0, {0}};
    memcpy(t.shadow, volume, sizeof t.shadow);
    return t;
}

static void tell(const Trail *t) {
    printf("FAILED after %d stores of %d, one instruction changed:\n", t->done, t->count);
    for (int at = 0; at < WORDS; at++)
        if (t->volume[at] != t->shadow[at]) printf("    word %d from %04X to %04X\n", at, t->shadow[at], t->volume[at]);
    if (t->done < t->count) printf("  due was word %d, %04X\n", t->due[t->done].at, t->due[t->done].word);
}

static int changed(const Trail *t) {
    int n = 0;
    for (int at = 0; at < WORDS; at++) n += t->volume[at] != t->shadow[at];
    return n;
}

bool in_order(Trail *t) {
    if (memcmp(t->volume, t->shadow, sizeof t->shadow) == 0) return true;
    int n = changed(t), after = t->done + n;
    bool right = after <= t->count && (n == 1 || after <= 24);
    for (int i = t->done; right && i < after; i++) {
        const Store *s = &t->due[i];
        right = t->volume[s->at] == s->word && t->shadow[s->at] != s->word;
    }
    if (!right) {
        tell(t);
        return false;
    }
    t->done = after;
    t->instructions++;
    memcpy(t->shadow, t->volume, sizeof t->shadow);
    return true;
}

int step(pid_t pid) {
    int status = 0;
    if (ptrace(PTRACE_SINGLESTEP, pid, NULL, NULL) != 0 || waitpid(pid, &status, 0) != pid) return -1;
    return status;
}

void stay_on_one_core(void) {
    cpu_set_t set;
    CPU_ZERO(&set);
    CPU_SET((size_t)sched_getcpu(), &set);
    sched_setaffinity(0, sizeof set, &set); /* refused: no harm but time */
}
