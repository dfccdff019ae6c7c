/* SHA-256 (FIPS 180-4) of bytes that are all at hand. */
#ifndef SHA256_H
#define SHA256_H

#include <stddef.h>
#include <stdint.h>

/* Writes the SHA-256 of len bytes to digest. */
void sha256(const uint8_t *bytes, size_t len, uint8_t digest[32]);

#endif
