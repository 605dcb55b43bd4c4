/* How a program ends: SIGTERM and SIGINT ask for it, and whatever waits looks whether it has to.
 *
 * What can't look, as it waits for a server that is cut off, has four seconds. Then the process ends
 * all the same: that is as harmless as SIGKILL. */
#ifndef SIGNALS_H
#define SIGNALS_H

/* From now on these signals only ask for the end. */
void end_by_signals(void);

int is_ending(void);

/* A descriptor that is ready to be read, for good, once the program is to end. */
int ending_descriptor(void);

/* From now on SIGHUP is noted. Whether one came since the last call. */
void note_hangups(void);
int has_hung_up(void);

/* Asks for the end, as a signal does, since something failed. */
void end_now(void);

/* What can't be, such as a clock that doesn't answer: says so, and ends the program with status 1 at
 * once. Whatever it was about to do is as if the process had been killed. */
void end_at_once(const char *what);

#endif
