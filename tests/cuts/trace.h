/* Following the stores of another process into a volume that it shares, one instruction at a time. */
#include <sys/types.h>

#include "book.h"

typedef struct {
    const uint16_t *volume; /* shared with the process that is followed */
    const Store *due;       /* the stores that are to come, in order */
    int count, done;
    int instructions;       /* those that stored */
    uint16_t shadow[WORDS]; /* the volume after the last step */
} Trail;

Trail trail(const uint16_t *volume, const Store *due, int count);

/*
 * Whether what the volume has changed by since the last step are the next stores that are due, each word whole. One instruction may store several words of
 * the entry; the link, the chain's last and the count are an instruction each. Says what was stored where it is anything else.
 */
bool in_order(Trail *t);

/* One instruction; how the process is then, as waitpid has it. */
int step(pid_t pid);

/* This process and those that it starts share a core, where the hand over from one to the other is fastest. */
void stay_on_one_core(void);
