/* The keys, user data and confounder of the matrix, and the secrets that are looked for in blocks. */
#ifndef SECRETS_H
#define SECRETS_H
#include <stddef.h>
#include <stdint.h>

/* Over KRBRELAY_FRAME_LIMIT, and over what is written behind user data. */
enum { BIG = 1006000, CONFOUNDER = 16 };

extern uint8_t key[32], confounder[CONFOUNDER], user_data[BIG];

/* Makes them, and reads the derived keys and round keys in these files, a line 'name=hexadecimal' each.
 * Answers how many secrets there are, or 0 if a file has none. */
int secrets_read(int count, char **files);

/* Leaves each secret in a block, in one that realloc leaves, and in a small and a large one of each:
 * answers how many of these were found, or -1 if one wasn't. */
long secrets_control(void);
#endif
