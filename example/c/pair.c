/* pair LOSSES SEED [CHECK32]: two ends of the link carry a file each over a line that loses LOSSES of 1000 frames and patterns, and each takes the other's.
 *
 * The line is a struct of what is on it in a turn. Nothing else connects both ends. */
#include "modem.h"
#include <stdio.h>
#include <stdlib.h>
#include <string.h>

enum { LENGTH = 20000, TURNS = 20000 };

/* What is on the line in one direction in a turn. */
struct carried {
    uint32_t kind;
    uint8_t octets[MODEM_WHOLE];
    size_t count;
};

/* An end with its user, who has a file to send and room for what comes. */
struct end {
    modem_link link;
    uint8_t file[LENGTH], taken[LENGTH + MODEM_INFO];
    size_t offered, took;
};

static void fail(const char *where, int32_t code, const modem_fault *why)
{
    fprintf(stderr, "pair: %s: %s, cause %u\n", where, modem_text(code), why == NULL ? 0 : why->cause);
    exit(1);
}

/* What the user does between receiving and sending. */
static void serve(struct end *end)
{
    size_t count;
    int32_t code;
    while ((code = modem_link_deliver(&end->link, end->taken + end->took, sizeof end->taken - end->took, &count)) == MODEM_DONE)
        end->took += count;
    if (code != MODEM_NOTHING)
        fail("deliver", code, NULL);
    while ((code = modem_link_wants(&end->link, &count)) == MODEM_DONE) {
        if (count > LENGTH - end->offered)
            count = LENGTH - end->offered;
        code = modem_link_offer(&end->link, end->file + end->offered, count);
        if (code != MODEM_DONE)
            fail("offer", code, NULL);
        end->offered += count;
    }
}

/* One turn of an end: what comes, and what goes out. */
static int is_whole_after(struct end *end, const struct carried *in, struct carried *out)
{
    modem_fault why;
    modem_sent sent;
    modem_standing standing;
    int32_t given, code;
    if ((code = modem_link_receive(&end->link, in->kind, in->octets, in->count, &given, &why)) != MODEM_DONE)
        fail("receive", code, &why);
    serve(end);
    if ((code = modem_link_send(&end->link, 0, out->octets, sizeof out->octets, &sent, &why)) != MODEM_DONE)
        fail("send", code, &why);
    if ((code = modem_link_standing(&end->link, &standing)) != MODEM_DONE)
        fail("standing", code, NULL);
    out->kind = sent.kind;
    out->count = sent.octets;
    return standing.whole == 1;
}

static struct end ends[2];

int main(int argc, char **argv)
{
    if (argc < 3) {
        fprintf(stderr, "usage: pair LOSSES SEED [CHECK32]\n");
        return 2;
    }
    const int losses = atoi(argv[1]);
    srand((unsigned)atoi(argv[2]));
    for (int role = 0; role < 2; role++) {
        const modem_setup setup = {
            .offer = {.tx_length = 128, .rx_length = 128, .tx_window = 15, .rx_window = 15, .srej = 1, .check32 = argc > 3},
            .period = 20, .tries = 8, .role = (uint8_t)role};
        const int32_t code = modem_link_new(&ends[role].link, &setup);
        if (code != MODEM_DONE)
            fail("new", code, NULL);
        for (int i = 0; i < LENGTH; i++)
            ends[role].file[i] = (uint8_t)rand();
    }

    struct carried in[2] = {{MODEM_ONES, {0}, 0}, {MODEM_ONES, {0}, 0}}, out[2];
    for (int turn = 0; turn < TURNS; turn++) {
        const int first = is_whole_after(&ends[0], &in[0], &out[0]), second = is_whole_after(&ends[1], &in[1], &out[1]);
        if (first && second) {
            const int right = ends[0].took == LENGTH && ends[1].took == LENGTH && memcmp(ends[0].taken, ends[1].file, LENGTH) == 0 &&
                              memcmp(ends[1].taken, ends[0].file, LENGTH) == 0;
            printf("turn %d: %s\n", turn, right ? "both files are whole" : "a file differs");
            modem_free(&ends[0].link);
            modem_free(&ends[1].link);
            return !right;
        }
        for (int to = 0; to < 2; to++) {
            in[to] = out[1 - to];
            if (rand() % 1000 < losses)
                in[to].kind = MODEM_ONES;
        }
    }
    printf("not done after %d turns\n", TURNS);
    return 1;
}
