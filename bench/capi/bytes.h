/* Numbers in bytes, lowest byte first. */
#ifndef BYTES_H
#define BYTES_H
#include <stdint.h>
#include <stddef.h>

static inline uint32_t le32(const uint8_t *p) { return p[0] | p[1] << 8 | p[2] << 16 | (uint32_t)p[3] << 24; }
static inline uint32_t le16(const uint8_t *p) { return p[0] | p[1] << 8; }

#endif
