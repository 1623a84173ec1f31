/* Plain implementations to compare the library with. */
#ifndef PLAIN_H
#define PLAIN_H

#include <stddef.h>
#include <stdint.h>

uint32_t plain_run(uint64_t n, const uint8_t *inputs, size_t input_bytes, const uint8_t *turns, size_t turn_bytes, uint8_t *answer, size_t answer_bytes);

#endif
