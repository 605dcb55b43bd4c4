/* Locks of threads. One that can't be taken or given back ends the program (end_at_once): what it
 * guards can't be used any more. */
#ifndef LOCKS_H
#define LOCKS_H

#include <pthread.h>

void take_lock(pthread_mutex_t *lock);
void give_lock(pthread_mutex_t *lock);

#endif
