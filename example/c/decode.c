/* decode REC FILE [SAMPLES [ROOM]]: the octets of a recording, as `modem decode` and `decode4` give them.
 *
 * SAMPLES are pushed at a time, with room for ROOM bits: any numbers do, since a call says how far it came. */
#include "modem.h"
#include "recording.h"
#include <stdlib.h>

/* Puts bits together, the first one lowest, and writes the octets that are whole. */
static void write_bits(FILE *out, const uint8_t *bits, size_t count)
{
    static unsigned octet, have;
    for (size_t i = 0; i < count; i++) {
        octet |= (unsigned)bits[i] << have;
        if (++have == 8) {
            fputc((int)octet, out);
            octet = have = 0;
        }
    }
}

int main(int argc, char **argv)
{
    if (argc < 3 || argc > 5) {
        fprintf(stderr, "usage: decode REC FILE [SAMPLES [ROOM]]\n");
        return 2;
    }
    const size_t samples = argc > 3 ? strtoul(argv[3], NULL, 10) : 240;
    const size_t room = argc > 4 ? strtoul(argv[4], NULL, 10) : 4096;
    FILE *in = fopen(argv[1], "rb"), *out = fopen(argv[2], "wb");
    int16_t *parts = malloc(2 * samples * sizeof *parts + 1);
    uint8_t *bits = malloc(room + 1), last[MODEM_LAST_BITS], mode;
    int is_4800;
    if (in == NULL || out == NULL || parts == NULL || bits == NULL || samples == 0 || read_header(in, &mode, &is_4800) != 0) {
        fprintf(stderr, "decode: no recording, or no output\n");
        return 1;
    }

    modem_decoder decoder = MODEM_NONE;
    modem_progress progress;
    int32_t code = modem_decoder_new(&decoder, is_4800 ? MODEM_4800 : MODEM_9600, mode);
    for (size_t count; code == MODEM_DONE && (count = read_parts(in, parts, 2 * samples)) > 0;) {
        size_t at = 0;
        do {
            code = modem_decoder_push(&decoder, parts + at, count - at, bits, room, &progress);
            write_bits(out, bits, progress.written);
            at += 2 * progress.read;
        } while (code == MODEM_FULL);
    }
    if (code == MODEM_DONE) {
        code = modem_decoder_finish(&decoder, last, sizeof last, &progress);
        if (code == MODEM_DONE)
            write_bits(out, last, progress.written);
    }
    modem_free(&decoder);

    if (code == MODEM_LOST)
        fprintf(stderr, "decode: %s: symbol %llu\n", modem_text(code), (unsigned long long)progress.lost);
    else if (code != MODEM_DONE)
        fprintf(stderr, "decode: %s\n", modem_text(code));
    free(parts);
    free(bits);
    fclose(in);
    return fclose(out) != 0 || code != MODEM_DONE;
}
