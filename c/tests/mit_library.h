/* For tests beside MIT's library: what fails there ends the program. */
#ifndef MIT_LIBRARY_H
#define MIT_LIBRARY_H
#include <krb5.h>
#include <stdio.h>
#include <stdlib.h>

static krb5_context ctx;

/* Ends the test after an error of MIT's library, or of ours. */
static void must(long error, const char *what)
{
    if (error == 0)
        return;
    fprintf(stderr, "%s: %s\n", what, krb5_get_error_message(ctx, (krb5_error_code)error));
    exit(2);
}
#endif
