#include "list.h"

#include <stdlib.h>

int list_grow(struct list *list, size_t count)
{
    size_t room = 2 * list->room + 64;
    void **more;
    if (count < list->room)
        return 1;
    more = realloc(list->at, room * sizeof *more);
    if (more == NULL)
        return 0;
    list->at = more;
    list->room = room;
    return 1;
}

void list_add(struct list *list, void *it, int *is_in)
{
    if (!*is_in)
        list->at[list->count++] = it;
    *is_in = 1;
}

void list_forget(struct list *list)
{
    free(list->at);
    *list = (struct list){ NULL, 0, 0 };
}
