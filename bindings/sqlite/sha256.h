/* SHA-256 of FIPS 180-4. */
#include <stddef.h>

enum { SHA256_SIZE = 32 };

void sha256(const void *bytes, size_t size, unsigned char digest[SHA256_SIZE]);
