/* Numbers in the order of the network, and addresses as text. */
#include <arpa/inet.h>
#include <errno.h>
#include <stdio.h>
#include <stdlib.h>
#include <string.h>
#include <ctype.h>

uint32_t htonl(uint32_t number)
{
    return __builtin_bswap32(number);
}

uint16_t htons(uint16_t number)
{
    return __builtin_bswap16(number);
}

uint32_t ntohl(uint32_t number)
{
    return __builtin_bswap32(number);
}

uint16_t ntohs(uint16_t number)
{
    return __builtin_bswap16(number);
}

/* One to four numbers, of which the last one fills what is left. */
int inet_aton(const char *text, struct in_addr *address)
{
    unsigned long parts[4];
    int count = 0;
    for (;;) {
        char *end;
        if (!isdigit((unsigned char)*text))
            return 0;
        parts[count++] = strtoul(text, &end, 0);
        text = end;
        if (*text != '.' || count == 4)
            break;
        text++;
    }
    if (*text && !isspace((unsigned char)*text))
        return 0;
    uint32_t number = 0;
    for (int i = 0; i < count - 1; i++) {
        if (parts[i] > 255)
            return 0;
        number |= (uint32_t)parts[i] << (24 - 8 * i);
    }
    if (count > 1 && parts[count - 1] >> (8 * (5 - count)) != 0)
        return 0;
    address->s_addr = htonl(number | (uint32_t)parts[count - 1]);
    return 1;
}

in_addr_t inet_addr(const char *text)
{
    struct in_addr address;
    return inet_aton(text, &address) ? address.s_addr : INADDR_NONE;
}

char *inet_ntoa(struct in_addr address)
{
    static char text[INET_ADDRSTRLEN];
    return (char *)inet_ntop(AF_INET, &address, text, sizeof text);
}

const char *inet_ntop(int family, const void *restrict address, char *restrict text, socklen_t size)
{
    const unsigned char *bytes = address;
    char all[INET_ADDRSTRLEN];
    if (family != AF_INET) {
        errno = EAFNOSUPPORT;
        return NULL;
    }
    snprintf(all, sizeof all, "%u.%u.%u.%u", bytes[0], bytes[1], bytes[2], bytes[3]);
    if (strlen(all) >= size) {
        errno = ENOSPC;
        return NULL;
    }
    return strcpy(text, all);
}

/* Four decimal numbers, and nothing else. */
int inet_pton(int family, const char *restrict text, void *restrict address)
{
    unsigned char bytes[4];
    if (family != AF_INET) {
        errno = EAFNOSUPPORT;
        return -1;
    }
    for (int i = 0; i < 4; i++) {
        unsigned number = 0;
        int digits = 0;
        for (; isdigit((unsigned char)*text) && digits < 3; digits++)
            number = number * 10 + (unsigned)(*text++ - '0');
        if (digits == 0 || number > 255 || *text != (i < 3 ? '.' : 0))
            return 0;
        bytes[i] = (unsigned char)number;
        text++;
    }
    memcpy(address, bytes, sizeof bytes);
    return 1;
}
