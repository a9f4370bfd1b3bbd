/* encode call|answer FILE REC [4800]: the symbols of a file, as `modem encode` and `encode4` give them. */
#include "modem.h"
#include "recording.h"

int main(int argc, char **argv)
{
    if (argc < 4 || argc > 5) {
        fprintf(stderr, "usage: encode call|answer FILE REC [4800]\n");
        return 2;
    }
    const uint8_t mode = argv[1][0] == 'c' ? MODEM_CALLING : MODEM_ANSWERING;
    FILE *in = fopen(argv[2], "rb"), *out = fopen(argv[3], "wb");
    if (in == NULL || out == NULL) {
        fprintf(stderr, "encode: no file, or no output\n");
        return 1;
    }

    modem_encoder encoder = MODEM_NONE;
    modem_progress progress;
    int32_t code = modem_encoder_new(&encoder, argc > 4 ? MODEM_4800 : MODEM_9600, mode);
    write_header(out, mode, argc > 4);
    for (int octet; code == MODEM_DONE && (octet = fgetc(in)) != EOF;) {
        uint8_t bits[8];
        int16_t parts[8];
        for (int i = 0; i < 8; i++)
            bits[i] = (uint8_t)(octet >> i & 1);
        code = modem_encoder_push(&encoder, bits, 8, parts, 8, &progress);
        write_parts(out, parts, 2 * progress.written);
    }
    modem_free(&encoder);

    if (code != MODEM_DONE)
        fprintf(stderr, "encode: %s\n", modem_text(code));
    fclose(in);
    return fclose(out) != 0 || code != MODEM_DONE;
}
