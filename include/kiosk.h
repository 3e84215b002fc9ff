/* The call of the lending kiosk's C program. */
#ifndef KIOSK_H
#define KIOSK_H

#include <stddef.h>
#include <stdint.h>

#ifdef __cplusplus
extern "C" {
#endif

/* Makes a register of the scheme tape, with room for every cell and with no filters, opens it with the opening tape,
 * and checks on it the certificate of the certificate tape and the bans of the ban tape. Each step is taken only where
 * the one before was accepted.
 *
 * A tape is handed over as a pointer to its bytes and their number. The number may be 0, and the pointer is not null
 * then either. The bytes are only read, and nothing of them is kept.
 *
 * The answer is 0 where all four are accepted, and else the first fault: layer * 2^24 + number * 2^16 + place
 * (docs/REFUSALS.md). */
uint32_t kiosk_check(const uint8_t *scheme, size_t scheme_len,
                     const uint8_t *opening, size_t opening_len,
                     const uint8_t *certificate, size_t certificate_len,
                     const uint8_t *bans, size_t bans_len);

#ifdef __cplusplus
}
#endif

#endif
