/* speed REC: how many samples, bits and turns a second the library's calls take, by the processor's time. */
#include "modem.h"
#include "../../example/c/recording.h"
#include <stdlib.h>
#include <time.h>

static double now(void)
{
    struct timespec time;
    clock_gettime(CLOCK_PROCESS_CPUTIME_ID, &time);
    return (double)time.tv_sec + 1e-9 * (double)time.tv_nsec;
}

enum { MOST = 1 << 22 };

static int16_t parts[2 * MOST];
static uint8_t bits[4 * MOST + MODEM_LAST_BITS], info[MODEM_INFO], room[MODEM_WHOLE];

static int decode(uint8_t mode, size_t samples, size_t each)
{
    modem_decoder decoder = MODEM_NONE;
    modem_progress progress;
    size_t written = 0, calls = 0;
    if (modem_decoder_new(&decoder, MODEM_9600, mode) != MODEM_DONE)
        return 1;
    double time = now();
    for (size_t at = 0; at < samples; calls++) {
        const size_t count = samples - at < each ? samples - at : each;
        if (modem_decoder_push(&decoder, parts + 2 * at, 2 * count, bits + written, sizeof bits - written, &progress) != MODEM_DONE)
            return 1;
        at += progress.read;
        written += progress.written;
    }
    time = now() - time;
    printf("decoder, %zu samples a call: %.1f M samples/s, %.0f ns a call\n", each, (double)samples / time / 1e6, 1e9 * time / (double)calls);
    modem_free(&decoder);
    return 0;
}

int main(int argc, char **argv)
{
    FILE *in = argc == 2 ? fopen(argv[1], "rb") : NULL;
    uint8_t mode;
    int is_4800;
    if (in == NULL || read_header(in, &mode, &is_4800) != 0 || is_4800)
        return 2;
    const size_t samples = read_parts(in, parts, 2 * MOST) / 2;
    for (size_t each = 1; each <= 1000000; each *= 10)
        if (decode(mode, samples, each) != 0)
            return 1;

    modem_deframer deframer = MODEM_NONE;
    modem_found found;
    size_t pieces = 0;
    if (modem_deframer_new(&deframer, MODEM_ORIGINATOR, 0) != MODEM_DONE)
        return 1;
    double time = now();
    for (size_t at = 0; modem_deframer_push(&deframer, bits + at, 4 * samples - at, info, sizeof info, &found) == MODEM_DONE; at += found.read)
        pieces++;
    time = now() - time;
    printf("deframer: %.1f M bits/s, %zu pieces\n", 4 * (double)samples / time / 1e6, pieces);
    modem_free(&deframer);

    modem_link link = MODEM_NONE;
    const modem_setup setup = {.offer = {128, 128, 15, 15, 1, 1}, .period = 60000, .tries = 20, .role = MODEM_ANSWERER};
    modem_sent sent;
    modem_fault why;
    int32_t given;
    size_t count;
    if (modem_link_new(&link, &setup) != MODEM_DONE)
        return 1;
    time = now();
    for (int turn = 0; turn < 1000000; turn++)
        if (modem_link_receive(&link, MODEM_ONES, room, 0, &given, &why) != MODEM_DONE || modem_link_deliver(&link, info, sizeof info, &count) != MODEM_NOTHING ||
            modem_link_send(&link, 0, room, sizeof room, &sent, &why) != MODEM_DONE)
            return 1;
    time = now() - time;
    printf("link, turns of three calls without a frame: %.2f M turns/s\n", 1 / time);
    modem_free(&link);
    return 0;
}
