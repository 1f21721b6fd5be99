/* What a numbered access list of Cisco IOS decides of a packet's header. */
#ifndef MILTROUEG_H
#define MILTROUEG_H

#include <stddef.h>
#include <stdint.h>

#ifdef __cplusplus
extern "C" {
#endif

enum {
    MILTROUEG_DENY = 0,
    MILTROUEG_PERMIT = 1,
    /* a refused text answers MILTROUEG_REFUSED + the refusal's number */
    MILTROUEG_REFUSED = 256
};

/*
 * Reads the list in the `length` bytes at `text` and decides the header by first match; where no line fits,
 * it denies. Addresses have their first number on top: 10.0.0.1 is 0x0a000001.
 *
 * `text` points at `length` readable bytes; it is not null, also where `length` is 0 (an empty text denies).
 * The text is only read, nothing is kept between calls, and no memory is allocated. The call takes about
 * 46 KiB of stack, most of it for the list's lines; firmware/check.sh measures it and fails above 64 KiB.
 */
uint32_t miltroueg_decide(const uint8_t *text, size_t length, uint32_t source, uint32_t destination,
                          uint8_t protocol, uint16_t source_port, uint16_t destination_port);

#ifdef __cplusplus
}
#endif

#endif
