/* The recordings of `modem`: "V32R", an octet whose bit 0 is the mode and whose bit 1 is set at 4800 bit/s, three zeros, and for each symbol a real and an
 * imaginary part of 16 bits, the low octet first. */
#ifndef RECORDING_H
#define RECORDING_H

#include <stdint.h>
#include <stdio.h>
#include <string.h>

/* Reads the header: 0 where it is one. */
static inline int read_header(FILE *in, uint8_t *mode, int *is_4800)
{
    uint8_t header[8];
    if (fread(header, 1, 8, in) != 8 || memcmp(header, "V32R", 4) != 0 || header[4] > 3)
        return 1;
    *mode = header[4] & 1;
    *is_4800 = header[4] >> 1;
    return 0;
}

/* Reads so many parts at most: how many they were. */
static inline size_t read_parts(FILE *in, int16_t *parts, size_t count)
{
    size_t done = 0;
    uint8_t pair[2];
    while (done < count && fread(pair, 1, 2, in) == 2)
        parts[done++] = (int16_t)(uint16_t)(pair[0] | pair[1] << 8);
    return done;
}

static inline void write_header(FILE *out, uint8_t mode, int is_4800)
{
    const uint8_t header[8] = {'V', '3', '2', 'R', (uint8_t)(mode | is_4800 << 1), 0, 0, 0};
    fwrite(header, 1, 8, out);
}

static inline void write_parts(FILE *out, const int16_t *parts, size_t count)
{
    for (size_t i = 0; i < count; i++) {
        const uint16_t part = (uint16_t)parts[i];
        fputc(part & 0xff, out);
        fputc(part >> 8, out);
    }
}

#endif
