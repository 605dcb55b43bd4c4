/* The answers of calls: one list for outbox, stores, carriers, effects and sealing. Each call says which of them it
 * answers, if it isn't DONE or FAULT alone. */
#ifndef ANSWER_H
#define ANSWER_H

enum answer {
    ANSWER_FAULT = -1, /* it failed, which is reported: it isn't known whether it was done */
    ANSWER_DONE,       /* it was done; of what is looked for: there is none */
    ANSWER_FOUND,      /* a row, or what was looked for */
    ANSWER_AGAIN,      /* it wasn't done, and is tried again after a pause */
    ANSWER_LATER,      /* it can't be had now */
    ANSWER_REFUSED,    /* it is refused, however often it is tried */
    ANSWER_STOPPED,    /* a session is to be stopped */
    ANSWER_ELSEWHERE,  /* something stands elsewhere than where it was compared: nothing took effect */
    ANSWER_CHANGED,    /* the shard is another list than it was */
    ANSWER_TAKEN       /* another process has the outbox */
};

#endif
