/* The one place in which a program, or a thread of it, waits: until a moment, until the end
 * (signals.h), or until something has come.
 *
 * inotify reports that a database of SQLite was written to. It does so when the writing begins, and
 * what was written is seen only once it is synced. So a thread that was woken looks again soon, and
 * then ever more rarely. A change that inotify doesn't report is found within 1.5 seconds. Where a
 * file can't be watched, a wait ends after 20 milliseconds. */
#ifndef WAITING_H
#define WAITING_H

#include <stdint.h>

enum { WATCHED = 2, BRIEF = 5 }; /* files of one program at most; milliseconds */

struct waiting {
    int woken, changes;      /* descriptors: of waiting_wake, and of inotify or -1, */
    int heard;               /* and one that is ready to be read when something has come, or -1 */
    int is_told;             /* it is known that the program is to end */
    int is_blind;            /* a file can't be watched */
    int passes_on;           /* what comes is for others: it isn't looked for again */
    unsigned count;
    struct watched { char *path; uint64_t seen[3]; } files[WATCHED];
    uint64_t came, looked;   /* when something came last; when the files were looked at; in
                              * milliseconds */
};

/* Prepares it. If it passes on what comes, it is woken once for it. */
void waiting_begin(struct waiting *it, int passes_on);

/* Whatever is written to this database, which is open, wakes who waits. */
void waiting_watch(struct waiting *it, const char *path);

/* From now on this descriptor wakes who waits, as long as it is ready to be read; none if it is -1. */
void waiting_hear(struct waiting *it, int descriptor);

/* Waits until a descriptor is ready to be read, or until this moment: for an answer within a call. */
void waiting_for(int descriptor, uint64_t moment);

/* Wakes who waits here, or is about to. Any thread may call it. */
void waiting_wake(struct waiting *it);

/* Waits until this moment, in milliseconds of the clock that only rises, or until something comes:
 * 1 if a file was written to. A wait of at most BRIEF milliseconds isn't cut short: what comes in it
 * is looked at together. */
int waiting_until(struct waiting *it, uint64_t moment);

void waiting_end(struct waiting *it);

#endif
