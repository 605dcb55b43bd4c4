#include "locks.h"
#include "signals.h"

void take_lock(pthread_mutex_t *lock)
{
    if (pthread_mutex_lock(lock) != 0)
        end_at_once("a lock isn't taken");
}

void give_lock(pthread_mutex_t *lock)
{
    if (pthread_mutex_unlock(lock) != 0)
        end_at_once("a lock isn't given back");
}
