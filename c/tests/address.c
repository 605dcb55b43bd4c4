/* krbrelay_address_from of each length, in a block that ends where memory does, and of each kind of address
 * of IPv6. */
#define _GNU_SOURCE
#include "check.h"
#include "krbrelay.h"

#include <netinet/in.h>
#include <string.h>
#include <sys/mman.h>
#include <sys/socket.h>
#include <unistd.h>

/* The last `len` bytes of a page, behind which nothing may be read. */
static uint8_t *at_end(size_t len)
{
    static uint8_t *pages;
    size_t page = (size_t)sysconf(_SC_PAGESIZE);
    if (pages == NULL) {
        pages = mmap(NULL, 2 * page, PROT_READ | PROT_WRITE, MAP_PRIVATE | MAP_ANONYMOUS, -1, 0);
        if (pages == MAP_FAILED || mprotect(pages + page, page, PROT_NONE) != 0)
            _exit(3);
    }
    return pages + page - len;
}

static void each_length(const void *address, size_t size, uint32_t kind, uint32_t len)
{
    for (size_t given = 0; given <= size; given++) {
        struct krbrelay_address to, before;
        uint8_t *from = at_end(given);
        memcpy(from, address, given);
        memset(&to, 0x77, sizeof to);
        before = to;
        CHECK(krbrelay_address_from(&to, (const struct sockaddr *)(const void *)from, given)
              == (given < size ? KRBRELAY_ARGUMENT : KRBRELAY_OK));
        if (given < size)
            CHECK(memcmp(&to, &before, sizeof to) == 0);
        else
            CHECK((uint32_t)to.kind == kind && to.len == len);
    }
}

/* Only ::ffff:a.b.c.d is an address of IPv4; all others keep their 16 bytes. */
static void address_of_ipv6(const uint8_t bytes[16])
{
    static const uint8_t mapped[12] = { [10] = 0xff, [11] = 0xff };
    struct sockaddr_in6 from = { .sin6_family = AF_INET6 };
    struct krbrelay_address to;
    int is_ipv4 = memcmp(bytes, mapped, sizeof mapped) == 0;
    size_t len = is_ipv4 ? 4 : 16;
    uint8_t wanted[40] = { 0 };
    memcpy(from.sin6_addr.s6_addr, bytes, 16);
    memcpy(wanted, bytes + 16 - len, len);
    CHECK(krbrelay_address_from(&to, (const struct sockaddr *)&from, sizeof from) == KRBRELAY_OK);
    CHECK(to.kind == (is_ipv4 ? KRBRELAY_IPV4 : KRBRELAY_IPV6) && to.len == len);
    CHECK(memcmp(to.bytes, wanted, sizeof wanted) == 0);
}

static void each_kind_of_ipv6(void)
{
    static const uint8_t bases[][16] = {
        { 0 }, { [15] = 1 }, { [12] = 192, 0, 2, 7 }, { [10] = 0xff, 0xff, 192, 0, 2, 7 },
        { 0xfe, 0x80, [15] = 1 }, { 0xff, 2, [15] = 1 }, { 0x20, 1, 0xd, 0xb8, [15] = 9 },
        { 0, 0x64, 0xff, 0x9b, [12] = 192, 0, 2, 7 }
    };
    for (size_t i = 0; i < sizeof bases / sizeof *bases; i++)
        for (int bit = -1; bit < 128; bit++) {
            uint8_t bytes[16];
            memcpy(bytes, bases[i], 16);
            if (bit >= 0)
                bytes[bit / 8] ^= (uint8_t)(0x80 >> bit % 8);
            address_of_ipv6(bytes);
        }
}

int main(int count, char **words)
{
    struct sockaddr_in ipv4 = { .sin_family = AF_INET };
    struct sockaddr_in6 ipv6 = { .sin6_family = AF_INET6 };
    check_only(1, count, words);
    RUN(each_length(&ipv4, sizeof ipv4, KRBRELAY_IPV4, 4));
    RUN(each_length(&ipv6, sizeof ipv6, KRBRELAY_IPV6, 16));
    RUN(each_kind_of_ipv6());
    return check_status("address");
}
