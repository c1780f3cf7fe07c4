/* Numbers and station sets in bytes, least significant byte first. */
#ifndef BYTES_H
#define BYTES_H

#include <stddef.h>
#include <stdint.h>

static inline uint64_t get_number(const uint8_t *bytes, size_t width)
{
    uint64_t number = 0;
    for (size_t i = width; i > 0; i--) {
        number = number << 8 | bytes[i - 1];
    }
    return number;
}

static inline void set_number(uint8_t *bytes, size_t width, uint64_t number)
{
    for (size_t i = 0; i < width; i++) {
        bytes[i] = (uint8_t)(number >> (8 * i));
    }
}

static inline uint16_t get_set(const uint8_t *bytes)
{
    return (uint16_t)get_number(bytes, 2);
}

static inline void set_set(uint8_t *bytes, unsigned set)
{
    set_number(bytes, 2, set);
}

#endif
