/* Writes down what a sender hands to NATS and what comes to it, as the library has it, before any
 * code of carrier/ judges it. The linker puts these calls in the place of the library's (--wrap).
 *
 * CARRIER_RECORD names the file, to which each line is added by one call: "P SUBJECT REPLY" of what
 * is published, "M SUBJECT DATA" of what came. */
#include "wrapped.h"

#include <nats/nats.h>

#include <fcntl.h>
#include <stdio.h>
#include <stdlib.h>
#include <string.h>
#include <unistd.h>

enum { LINE = 1024 };

WRAPPED(natsConnection_PublishRequest);
WRAPPED(natsSubscription_NextMsg);

/* The file, or -1 if there is to be none. What can't be written down can't be judged: that ends
 * the program. */
static int record(void)
{
    static int file = -2;
    const char *path = getenv("CARRIER_RECORD");
    if (file == -2)
        file = path != NULL ? open(path, O_WRONLY | O_APPEND | O_CREAT | O_CLOEXEC, 0600) : -1;
    if (file == -1 && path != NULL)
        abort();
    return file;
}

/* What doesn't fit into a line is what a stream says of itself, and is left out, as receipts are. */
static void note(char kind, const char *subject, const char *text, int len)
{
    char line[LINE];
    int size;
    if (record() < 0 || strncmp(subject, "krbr.", 5) == 0)
        return;
    size = snprintf(line, sizeof line, "%c %s %.*s\n", kind, subject, len, text);
    if (size < LINE && write(record(), line, (size_t)size) != size)
        abort();
}

natsStatus __wrap_natsConnection_PublishRequest(natsConnection *connection, const char *subject,
                                                const char *reply, const void *data, int len)
{
    note('P', subject, reply, LINE);
    return __real_natsConnection_PublishRequest(connection, subject, reply, data, len);
}

natsStatus __wrap_natsSubscription_NextMsg(natsMsg **message, natsSubscription *subscription,
                                           int64_t timeout)
{
    natsStatus status = __real_natsSubscription_NextMsg(message, subscription, timeout);
    if (status == NATS_OK && natsMsg_GetDataLength(*message) > 0)
        note('M', natsMsg_GetSubject(*message), natsMsg_GetData(*message),
             natsMsg_GetDataLength(*message));
    return status;
}
