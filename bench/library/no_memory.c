/* no_memory: each allocation of each kind of handle fails in turn, and no call behind `new` takes memory, of two ends that connect too. Built with
 * -Wl,--wrap=malloc. */
#include "modem.h"
#include <assert.h>
#include <stdio.h>
#include <string.h>

/* How many allocations still succeed; -1: all. */
static int left = -1;

void *__real_malloc(size_t);
void *__wrap_malloc(size_t);

void *__wrap_malloc(size_t size)
{
    if (left == 0)
        return NULL;
    if (left > 0)
        left--;
    return __real_malloc(size);
}

union handle {
    void *at;
    modem_decoder decoder;
    modem_encoder encoder;
    modem_meter meter;
    modem_deframer deframer;
    modem_detector detector;
    modem_framer framer;
    modem_link link;
};

enum { DECODER, MIDDLE, QUARTERS, ENCODER, METER, DEFRAMER, DETECTOR, FRAMER, LINK, KINDS };
static const char *const names[KINDS] = {"decoder", "decoder from the middle", "decoder at 4800", "encoder", "meter", "deframer", "detector", "framer",
                                          "link"};

static int32_t make(union handle *handle, int kind)
{
    const modem_setup setup = {.offer = {1024, 1024, 127, 127, 1, 1}, .period = 20, .tries = 8, .role = MODEM_ORIGINATOR};
    switch (kind) {
    case ENCODER: return modem_encoder_new(&handle->encoder, MODEM_9600, MODEM_CALLING);
    case METER: return modem_meter_new(&handle->meter, MODEM_CALLING);
    case DEFRAMER: return modem_deframer_new(&handle->deframer, MODEM_ORIGINATOR, 0);
    case DETECTOR: return modem_detector_new(&handle->detector);
    case FRAMER: return modem_framer_new(&handle->framer, 464);
    case LINK: return modem_link_new(&handle->link, &setup);
    default: return modem_decoder_new(&handle->decoder, (uint8_t)kind, MODEM_CALLING);
    }
}

static void use(union handle *handle, int kind)
{
    static int16_t parts[2000];
    static uint8_t bits[4096], room[MODEM_WHOLE];
    modem_progress progress;
    modem_found found;
    modem_sent sent;
    modem_fault why;
    int32_t given, code = MODEM_DONE;
    size_t count;
    uint32_t pattern;
    for (int i = 0; i < 2000; i++)
        parts[i] = (int16_t)(i * 7919);
    switch (kind) {
    case ENCODER: code = modem_encoder_push(&handle->encoder, bits, 4000, parts, 2000, &progress); break;
    case METER: code = modem_meter_push(&handle->meter, bits, 4000, parts, 2000, &progress); break;
    case DEFRAMER: code = modem_deframer_push(&handle->deframer, bits, sizeof bits, room, sizeof room, &found); break;
    case DETECTOR: code = modem_detector_push(&handle->detector, bits, sizeof bits, &count, &pattern); break;
    case FRAMER: code = modem_framer_slot(&handle->framer, MODEM_FLAGS, room, 0, bits, sizeof bits, &count); break;
    case LINK:
        for (int i = 0; i < 300 && code >= 0; i++) {
            code = modem_link_receive(&handle->link, i % 2 ? MODEM_ADP : MODEM_ONES, room, 0, &given, &why);
            while (modem_link_deliver(&handle->link, room, sizeof room, &count) == MODEM_DONE)
                continue;
            if (code >= 0)
                code = modem_link_send(&handle->link, 0, room, sizeof room, &sent, &why);
        }
        break;
    default: code = modem_decoder_push(&handle->decoder, parts, 2000, bits, sizeof bits, &progress);
    }
    assert(code >= 0);
}

/* Two ends connect, and each takes the segments that the other is offered while it wants them, and an empty piece, which ends its file. */
static void connected(void)
{
    enum { SEGMENTS = 40, LENGTH = 128, TURNS = 400 };
    static uint8_t piece[LENGTH], taken[MODEM_INFO], octets[2][MODEM_WHOLE], heard[2][MODEM_WHOLE];
    modem_link ends[2] = {MODEM_NONE, MODEM_NONE};
    modem_sent sent[2] = {{MODEM_ONES, 0}, {MODEM_ONES, 0}}, before[2];
    modem_standing standing;
    modem_fault why;
    int offered[2] = {0, 0}, took[2] = {0, 0}, whole = 0;
    size_t count;
    int32_t given;
    for (int role = 0; role < 2; role++) {
        const modem_setup setup = {.offer = {LENGTH, LENGTH, 15, 15, 1, 1}, .period = 20, .tries = 8, .role = (uint8_t)role};
        assert(modem_link_new(&ends[role], &setup) == MODEM_DONE);
    }
    left = 0;
    for (int turn = 0; turn < TURNS && whole < 2; turn++) {
        memcpy(before, sent, sizeof sent);
        memcpy(heard, octets, sizeof octets);
        whole = 0;
        for (int role = 0; role < 2; role++) {
            const int other = 1 - role;
            assert(modem_link_receive(&ends[role], before[other].kind, heard[other], before[other].octets, &given, &why) == MODEM_DONE);
            while (modem_link_deliver(&ends[role], taken, sizeof taken, &count) == MODEM_DONE) {
                assert(count == LENGTH && taken[0] == took[role] && taken[LENGTH - 1] == other);
                took[role]++;
            }
            while (offered[role] <= SEGMENTS && modem_link_wants(&ends[role], &count) == MODEM_DONE) {
                piece[0] = (uint8_t)offered[role], piece[LENGTH - 1] = (uint8_t)role;
                assert(modem_link_offer(&ends[role], piece, offered[role] < SEGMENTS ? LENGTH : 0) == MODEM_DONE);
                offered[role]++;
            }
            assert(modem_link_send(&ends[role], 0, octets[role], MODEM_WHOLE, &sent[role], &why) == MODEM_DONE);
            assert(modem_link_standing(&ends[role], &standing) == MODEM_DONE);
            whole += (int)standing.whole;
        }
    }
    left = -1;
    assert(whole == 2 && took[0] == SEGMENTS && took[1] == SEGMENTS);
    puts("two ends connect: no block behind new");
    modem_free(&ends[0]);
    modem_free(&ends[1]);
}

int main(void)
{
    for (int kind = 0; kind < KINDS; kind++) {
        union handle handle = {NULL};
        int32_t code;
        int blocks = 0;
        do {
            left = blocks++;
            code = make(&handle, kind);
            assert(code == MODEM_DONE ? handle.at != NULL : code == MODEM_NO_MEMORY && handle.at == NULL);
        } while (code != MODEM_DONE);
        left = 0;
        use(&handle, kind);
        left = -1;
        printf("%s: %d blocks\n", names[kind], blocks - 1);
        modem_free(&handle);
    }
    connected();
    return 0;
}
