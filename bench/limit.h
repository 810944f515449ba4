/* limit.h - the least that any judge of bytes must do: read them. */
#ifndef LIMIT_H
#define LIMIT_H

#include <stddef.h>
#include <stdint.h>

/* The sum of the bytes' 64-bit words; once more for x86-64-v3. */
uint64_t read_pass(const uint8_t *bytes, size_t length);
uint64_t read_pass_v3(const uint8_t *bytes, size_t length);

#endif
