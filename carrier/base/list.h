/* Lists of what a program has in memory. */
#ifndef LIST_H
#define LIST_H

#include <stddef.h>

struct list { void **at; size_t count, room; };

/* Room for one more than so many: 1, or 0 if there is no memory. */
int list_grow(struct list *list, size_t count);

/* Adds one, for which there is room, unless it is in the list, as *is_in says from then on. */
void list_add(struct list *list, void *it, int *is_in);

void list_forget(struct list *list);

#endif
