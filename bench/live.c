/* live FIRST COUNT [trace]: sessions of an end of libmodem with the LAPM of spandsp over a simulated bit line at 9600 bit/s, by seeds FIRST to FIRST+COUNT-1.
 *
 * Both roles; files of 0 to 20,000 octets both ways; delays of up to a quarter of a second; bursts of random bits of 10 to 300 ms; breaks that our end asks for. It prints a
 * line for each session that isn't whole, and how many ended how. The status is 1 where what an end took isn't a beginning of what was sent, or an end isn't explained.
 * How it is built is in bench/live.
 *
 * How the end is driven is what docs/LIBRARY.md says of a line that isn't cut into slots: a turn is what the end transmits at once. */
#include "modem.h"
#include <spandsp.h>
#include <spandsp/expose.h>
#include <stdbool.h>
#include <stdio.h>
#include <stdlib.h>
#include <string.h>

enum { RATE = 9600, LIMIT = 300 * RATE, MOST = 20000, DELAY = RATE / 4, WAITING = 64, IDLE = 80, PERIOD = 120, TRIES = 8, PATTERN = 139 };

static bool traces;

/* ---- numbers drawn from a seed ---- */

static uint64_t state;

static uint32_t draw(uint32_t below)
{
    state = state * 6364136223846793005u + 1442695040888963407u;
    return (uint32_t)((state >> 33) % below);
}

/* ---- one direction of the line ---- */

struct line {
    uint8_t waiting[DELAY + 1];
    size_t delay, at;
    long burst;     /* bits of it that are left */
    uint32_t odds;  /* one burst in so many bits; 0: none */
    long bursts;
};

static int pass(struct line *line, int bit)
{
    if (line->burst == 0 && line->odds != 0 && draw(line->odds) == 0) {
        line->burst = RATE / 100 + (long)draw(29 * RATE / 100);
        line->bursts++;
    }
    if (line->burst > 0) {
        line->burst--;
        bit = (int)draw(2);
    }
    const int passed = line->waiting[line->at];
    line->waiting[line->at] = (uint8_t)bit;
    line->at = (line->at + 1) % (line->delay + 1);
    return line->delay == 0 ? bit : passed;
}

/* ---- what an end sends and takes ---- */

struct user {
    uint8_t file[MOST], taken[MOST + MODEM_INFO];
    size_t length, offered, took;
};

static bool is_beginning(const struct user *taker, const struct user *giver)
{
    return taker->took <= giver->length && memcmp(taker->taken, giver->file, taker->took) == 0;
}

/* ---- our end ---- */

struct ours {
    modem_link link;
    modem_deframer deframer;
    modem_detector detector;
    modem_framer framer;
    struct user user;
    struct { uint32_t kind; uint8_t octets[MODEM_WHOLE]; size_t count; } heard[WAITING];
    size_t first, many;
    uint8_t bits[MODEM_FRAME_BITS * 4];
    size_t sent, ready;
    long turns, breaks_left;
    bool is_closed, is_whole, overran;
    uint32_t phase;
    modem_fault why;
};

static void must(int32_t code, const char *what)
{
    if (code == MODEM_DONE)
        return;
    fprintf(stderr, "live: %s: %s\n", what, modem_text(code));
    exit(3);
}

static void hear(struct ours *end, uint32_t kind, const uint8_t *octets, size_t count)
{
    if (end->many == WAITING) {
        end->overran = true;
        return;
    }
    const size_t at = (end->first + end->many++) % WAITING;
    end->heard[at].kind = kind;
    end->heard[at].count = count;
    memcpy(end->heard[at].octets, octets, count);
}

static void receive_bit(struct ours *end, int bit)
{
    const uint8_t one = (uint8_t)bit;
    uint8_t octets[MODEM_WHOLE], info[MODEM_INFO];
    size_t count, read;
    uint32_t kind;
    modem_found found;
    if (end->phase == MODEM_DETECTING && modem_detector_push(&end->detector, &one, 1, &read, &kind) == MODEM_DONE)
        hear(end, kind, octets, 0);
    if (modem_deframer_push(&end->deframer, &one, 1, info, sizeof info, &found) == MODEM_DONE && found.piece == MODEM_FRAME) {
        must(modem_deframer_octets(&end->deframer, octets, sizeof octets, &count), "octets");
        hear(end, MODEM_OCTETS, octets, count);
    }
}

static void transmit(struct ours *end, const modem_sent *sent, const uint8_t *octets)
{
    uint8_t *room = end->bits + end->ready;
    const size_t left = sizeof end->bits - end->ready;
    size_t written = 0;
    if (sent->kind == MODEM_OCTETS)
        must(modem_frame_bits(octets, sent->octets, room, left, &written), "bits");
    else if (sent->kind == MODEM_ODP || sent->kind == MODEM_ADP)
        must(modem_framer_slot(&end->framer, sent->kind, octets, 0, room, left, &written), "slot");
    else if (end->ready == 0)
        for (; written < IDLE; written++)
            room[written] = sent->kind == MODEM_ONES || (written % 8 != 0 && written % 8 != 7);
    end->ready += written;
}

/* A turn: one thing that was heard, the user, and what is sent. */
static void turn(struct ours *end)
{
    uint8_t octets[MODEM_WHOLE] = {0};
    modem_sent sent;
    modem_standing standing;
    int32_t given, code;
    size_t count;
    const bool waits = end->many > 0;
    code = waits ? modem_link_receive(&end->link, end->heard[end->first].kind, end->heard[end->first].octets, end->heard[end->first].count, &given, &end->why)
                 : modem_link_receive(&end->link, MODEM_ONES, octets, 0, &given, &end->why);
    if (waits) {
        end->first = (end->first + 1) % WAITING;
        end->many--;
    }
    end->turns++;
    if (code == MODEM_BROKEN) {
        end->is_closed = true;
        return;
    }
    must(code, "receive");
    while ((code = modem_link_deliver(&end->link, end->user.taken + end->user.took, sizeof end->user.taken - end->user.took, &count)) == MODEM_DONE)
        end->user.took += count;
    if (code == MODEM_FULL) { /* more than was ever sent */
        end->is_closed = true;
        return;
    }
    while ((code = modem_link_wants(&end->link, &count)) == MODEM_DONE) {
        if (count > end->user.length - end->user.offered)
            count = end->user.length - end->user.offered;
        must(modem_link_offer(&end->link, end->user.file + end->user.offered, count), "offer");
        end->user.offered += count;
    }
    if (end->breaks_left > 0 && draw(400) == 0 && modem_link_ask_break(&end->link, 50) == MODEM_DONE)
        end->breaks_left--;
    code = modem_link_send(&end->link, 0, octets, sizeof octets, &sent, &end->why);
    if (code == MODEM_BROKEN) {
        end->is_closed = true;
        return;
    }
    must(code, "send");
    transmit(end, &sent, octets);
    must(modem_link_standing(&end->link, &standing), "standing");
    end->phase = standing.phase;
    end->is_whole = standing.whole == 1;
    end->is_closed = standing.phase == MODEM_CLOSED;
    must(modem_deframer_set_check(&end->deframer, (uint8_t)standing.check32), "check");
    if (traces && (sent.kind == MODEM_OCTETS || waits))
        fprintf(stderr, "turn %ld phase %u sends %u (%zu octets), %zu wait\n", end->turns, standing.phase, sent.kind, sent.octets, end->many);
}

static int transmit_bit(struct ours *end)
{
    if (end->sent == end->ready) {
        end->sent = end->ready = 0;
        do
            turn(end);
        while (!end->is_closed && end->many > 0 && end->ready < sizeof end->bits / 2);
        if (end->ready == 0) {
            memset(end->bits, 1, IDLE);
            end->ready = IDLE;
        }
    }
    return end->bits[end->sent++];
}

/* ---- spandsp's end ---- */

struct theirs {
    v42_state_t *v42;
    struct user user;
    int status;
};

static int give(void *user_data, uint8_t *message, int most)
{
    struct theirs *end = user_data;
    size_t count = end->user.length - end->user.offered;
    if (count > (size_t)most)
        count = (size_t)most;
    memcpy(message, end->user.file + end->user.offered, count);
    end->user.offered += count;
    return (int)count;
}

static void take(void *user_data, const uint8_t *message, int length)
{
    struct theirs *end = user_data;
    if (length <= 0)
        return;
    if (end->user.took + (size_t)length <= sizeof end->user.taken)
        memcpy(end->user.taken + end->user.took, message, (size_t)length);
    end->user.took += (size_t)length;
}

/* At each SABME it forgets what it had taken from its user, who therefore begins anew. */
static void note_status(void *user_data, int status)
{
    struct theirs *end = user_data;
    end->status = status;
    if (status == SIG_STATUS_LINK_CONNECTED)
        end->user.offered = 0;
    if (traces)
        fprintf(stderr, "spandsp: %s\n", lapm_status_to_str(status));
}

/* ---- a session ---- */

/* How a session ended, and whose doing that was. */
enum { WHOLE, NO_BREAK, NO_PATTERN, TOO_LOSSY, STALLED, WRONG, UNEXPLAINED, ENDS };
static const char *const ends[ENDS] = {
    "whole",
    "theirs: a break isn't answered, so our end gave up its tries",
    "the line: a burst fell on the ten patterns of the answerer, and there are no others",
    "the line: bursts fell on all tries",
    "theirs: a window was lost, and at an answer with F it sends none of it again",
    "a file isn't a beginning of the other's",
    "unexplained",
};

/* Why our end gave up. */
static int cause_of(const struct ours *ours, const struct line *there, const struct line *back, bool breaks)
{
    switch (ours->why.cause) {
    case 1:
        return back->bursts > 0 ? NO_PATTERN : UNEXPLAINED;
    case 2:
        return breaks ? NO_BREAK : there->bursts + back->bursts > 2 * TRIES ? TOO_LOSSY : UNEXPLAINED;
    default:
        return UNEXPLAINED;
    }
}

static int session(uint64_t seed)
{
    static struct ours ours;
    static struct theirs theirs;
    static struct line there, back;
    state = seed * 2654435761u + 1;
    for (int i = 0; i < 8; i++)
        draw(2);
    memset(&ours, 0, sizeof ours);
    memset(&theirs, 0, sizeof theirs);
    memset(&there, 0, sizeof there);
    memset(&back, 0, sizeof back);
    memset(there.waiting, 1, sizeof there.waiting);
    memset(back.waiting, 1, sizeof back.waiting);

    const uint8_t role = (uint8_t)draw(2);
    const modem_setup setup = {
        .offer = {128, 128, (uint8_t)(1 + draw(20)), 15, (uint8_t)draw(2), (uint8_t)draw(2)}, .period = PERIOD, .tries = TRIES, .role = role};
    ours.user.length = draw(4) == 0 ? draw(3) * 128 : draw(MOST);
    theirs.user.length = draw(4) == 0 ? draw(3) * 128 : draw(MOST);
    for (size_t i = 0; i < MOST; i++) {
        ours.user.file[i] = (uint8_t)draw(256);
        theirs.user.file[i] = (uint8_t)draw(256);
    }
    there.delay = draw(3) == 0 ? 0 : draw(DELAY);
    back.delay = draw(3) == 0 ? 0 : draw(DELAY);
    there.odds = draw(3) == 0 ? 0 : RATE / 2 * (1 + draw(20));
    back.odds = draw(3) == 0 ? 0 : RATE / 2 * (1 + draw(20));
    ours.breaks_left = draw(20) == 0;
    const bool breaks = ours.breaks_left > 0;

    must(modem_link_new(&ours.link, &setup), "link");
    must(modem_deframer_new(&ours.deframer, 1 - role, 0), "deframer");
    must(modem_detector_new(&ours.detector), "detector");
    must(modem_framer_new(&ours.framer, PATTERN), "framer");
    theirs.v42 = v42_init(NULL, role == MODEM_ANSWERER, true, give, take, &theirs);
    v42_set_status_callback(theirs.v42, note_status, &theirs);
    /* Without it nothing of its line is set up. It counts its timers for 28,800 bit/s, whatever the line. */
    v42_restart(theirs.v42);

    int how = UNEXPLAINED;
    long bit = 0;
    for (; bit < LIMIT; bit++) {
        v42_rx_bit(theirs.v42, pass(&there, transmit_bit(&ours)));
        receive_bit(&ours, pass(&back, v42_tx_bit(theirs.v42) & 1));
        if (!is_beginning(&ours.user, &theirs.user) || theirs.user.took > sizeof theirs.user.taken || !is_beginning(&theirs.user, &ours.user)) {
            how = WRONG;
            break;
        }
        if (ours.is_whole && ours.user.took == theirs.user.length && theirs.user.took == ours.user.length) {
            how = WHOLE;
            break;
        }
        if (ours.is_closed) {
            how = cause_of(&ours, &there, &back, breaks);
            break;
        }
    }
    if (bit == LIMIT && theirs.v42->lapm.va != theirs.v42->lapm.vs)
        how = STALLED;
    if (how != WHOLE)
        printf("seed %llu %s: %s; after %.1f s, sent %zu of %zu, took %zu of %zu, bursts %ld and %ld, delays %zu and %zu%s\n", (unsigned long long)seed,
               role == MODEM_ORIGINATOR ? "orig" : "answ", ends[how], (double)bit / RATE, theirs.user.took, ours.user.length, ours.user.took, theirs.user.length,
               there.bursts, back.bursts, there.delay, back.delay, ours.overran ? ", more came than was served" : "");
    modem_free(&ours.link);
    modem_free(&ours.deframer);
    modem_free(&ours.detector);
    modem_free(&ours.framer);
    v42_free(theirs.v42);
    return how;
}

int main(int argc, char **argv)
{
    if (argc < 3) {
        fprintf(stderr, "usage: live FIRST COUNT [trace]\n");
        return 2;
    }
    const uint64_t first = strtoull(argv[1], NULL, 10), count = strtoull(argv[2], NULL, 10);
    long by[ENDS] = {0};
    traces = argc > 3;
    for (uint64_t seed = first; seed < first + count; seed++)
        by[session(seed)]++;
    for (int how = 0; how < ENDS; how++)
        printf("%s: %ld\n", ends[how], by[how]);
    return by[WRONG] + by[UNEXPLAINED] != 0;
}
