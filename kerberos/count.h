/* Each call is counted, and told in a line at the end of the file that KRBRELAY_LOG names:
 *     PROGRAM CALL made|read|refused|passed REASON BYTES NUMBER
 * A refusal's reason is its name, and a message passed on to MIT's code has why in one word. */
#ifndef COUNT_H
#define COUNT_H

#include <stddef.h>
#include <stdint.h>

enum call { MK_SAFE, RD_SAFE, MK_PRIV, RD_PRIV, CALLS };
enum outcome { SERVED, REFUSED, PASSED, OUTCOMES };

extern const char *const call_names[CALLS];

void count_call(enum call call, enum outcome outcome, const char *reason, size_t bytes,
                uint32_t number);

/* How often this process counted the outcome of the call. */
unsigned long counted(enum call call, enum outcome outcome);

#endif
