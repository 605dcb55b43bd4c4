/* The addresses of sockets, as messages tell them (RFC 4120 section 7.5.3). */
#include "../krbrelay.h"

#include <netinet/in.h>
#include <string.h>
#include <sys/socket.h>

enum { IPV4_SIZE = 4, IPV6_SIZE = 16 };

static void set(struct krbrelay_address *to, int32_t kind, const uint8_t *bytes, uint32_t len)
{
    memset(to, 0, sizeof *to);
    to->kind = kind;
    to->len = len;
    memcpy(to->bytes, bytes, len);
}

static enum krbrelay_answer from_ipv4(struct krbrelay_address *to, const void *from, size_t len)
{
    struct sockaddr_in ipv4;
    if (len < sizeof ipv4)
        return KRBRELAY_ARGUMENT;
    memcpy(&ipv4, from, sizeof ipv4);
    set(to, KRBRELAY_IPV4, (const uint8_t *)&ipv4.sin_addr, IPV4_SIZE);
    return KRBRELAY_OK;
}

/* An address of IPv4 that is mapped into IPv6 is the one of IPv4. */
static enum krbrelay_answer from_ipv6(struct krbrelay_address *to, const void *from, size_t len)
{
    struct sockaddr_in6 ipv6;
    if (len < sizeof ipv6)
        return KRBRELAY_ARGUMENT;
    memcpy(&ipv6, from, sizeof ipv6);
    if (IN6_IS_ADDR_V4MAPPED(&ipv6.sin6_addr))
        set(to, KRBRELAY_IPV4, ipv6.sin6_addr.s6_addr + IPV6_SIZE - IPV4_SIZE, IPV4_SIZE);
    else
        set(to, KRBRELAY_IPV6, ipv6.sin6_addr.s6_addr, IPV6_SIZE);
    return KRBRELAY_OK;
}

/* It may lie at any address, so it is copied. */
static sa_family_t family_of(const void *from)
{
    sa_family_t family;
    memcpy(&family, (const uint8_t *)from + offsetof(struct sockaddr, sa_family), sizeof family);
    return family;
}

enum krbrelay_answer krbrelay_address_from(struct krbrelay_address *to, const struct sockaddr *from,
                                           size_t len)
{
    if (len < offsetof(struct sockaddr, sa_data))
        return KRBRELAY_ARGUMENT;
    switch (family_of(from)) {
    case AF_INET: return from_ipv4(to, from, len);
    case AF_INET6: return from_ipv6(to, from, len);
    default: return KRBRELAY_ARGUMENT;
    }
}
