/* wrong [CALLS [SEED]]: wrong calls of the library, each answered by its code and by nothing else; then so many random ones, 300,000. */
#include "modem.h"
#include <assert.h>
#include <stdio.h>
#include <stdlib.h>
#include <string.h>

static int16_t parts[2000];
static uint8_t bits[MODEM_FRAME_BITS], room[MODEM_WHOLE];
static modem_progress progress;
static modem_found found;
static modem_fault why;
static modem_sent sent;
static modem_standing standing;
static modem_reading reading;
static modem_offer offer;
static modem_terms terms;
static modem_xid_fault xid_fault;
static int32_t given;
static size_t count;
static uint32_t kind;
static const modem_setup usual = {.offer = {128, 128, 15, 15, 1, 1}, .period = 20, .tries = 8, .role = MODEM_ORIGINATOR};

/* Whatever stood in them, the outputs of a call that does nothing are these. */
static void spoil(void)
{
    memset(&progress, 0xa5, sizeof progress);
    memset(&found, 0xa5, sizeof found);
    memset(&reading, 0xa5, sizeof reading);
    memset(&why, 0xa5, sizeof why);
    memset(&sent, 0xa5, sizeof sent);
    memset(room, 0xa5, sizeof room);
    memset(bits, 0xa5, sizeof bits);
    count = 9;
    kind = 9;
    given = 9;
}

static int is_unwritten(void)
{
    for (size_t i = 0; i < sizeof room; i++)
        if (room[i] != 0xa5)
            return 0;
    for (size_t i = 0; i < sizeof bits; i++)
        if (bits[i] != 0xa5)
            return 0;
    return 1;
}

static int is_nothing_done(void)
{
    return progress.read == 0 && progress.written == 0 && progress.lost == 0 && is_unwritten();
}

static int has_no_frame(void)
{
    const modem_frame *frame = &found.frame;
    return frame->control == 0 && frame->command == 0 && frame->pf == 0 && frame->ns == MODEM_NO_NUMBER && frame->nr == MODEM_NO_NUMBER;
}

static int is_nothing_found(void)
{
    return found.read == 0 && found.ended == 0 && found.info == 0 && found.piece == MODEM_NO_PIECE && found.fault == 0 && found.octet == 0 && has_no_frame()
        && is_unwritten();
}

static int is_unbroken(void)
{
    return why.cause == 0 && why.nr == 0 && why.low == 0 && why.high == 0 && why.acknowledged == 0 && why.taken == 0 && why.since == 0;
}

static void empty_handles(void)
{
    modem_decoder decoder = MODEM_NONE;
    modem_encoder encoder = MODEM_NONE;
    modem_meter meter = MODEM_NONE;
    modem_deframer deframer = MODEM_NONE;
    modem_detector detector = MODEM_NONE;
    modem_framer framer = MODEM_NONE;
    modem_link link = MODEM_NONE;
    modem_free(&decoder);
    spoil();
    assert(modem_decoder_push(&decoder, parts, 2000, bits, sizeof bits, &progress) == MODEM_EMPTY && is_nothing_done());
    spoil();
    assert(modem_decoder_finish(&decoder, bits, sizeof bits, &progress) == MODEM_EMPTY && is_nothing_done());
    spoil();
    assert(modem_encoder_push(&encoder, bits, 8, parts, 2000, &progress) == MODEM_EMPTY && is_nothing_done());
    spoil();
    assert(modem_meter_push(&meter, bits, 8, parts, 2000, &progress) == MODEM_EMPTY && is_nothing_done());
    assert(modem_meter_read(&meter, &reading) == MODEM_EMPTY && reading.cost == 0 && reading.symbols == 0 && reading.sure == 0);
    assert(modem_deframer_push(&deframer, bits, 8, room, sizeof room, &found) == MODEM_EMPTY && is_nothing_found());
    assert(modem_deframer_octets(&deframer, room, sizeof room, &count) == MODEM_EMPTY && count == 0 && is_unwritten());
    assert(modem_deframer_set_check(&deframer, 1) == MODEM_EMPTY);
    assert(modem_deframer_set_check(&deframer, 7) == MODEM_EMPTY);
    spoil();
    assert(modem_detector_push(&detector, bits, 8, &count, &kind) == MODEM_EMPTY && count == 0 && kind == 0);
    spoil();
    assert(modem_framer_slot(&framer, MODEM_FLAGS, room, 0, bits, sizeof bits, &count) == MODEM_EMPTY && count == 0 && is_unwritten());
    assert(modem_link_receive(&link, MODEM_ONES, room, 0, &given, &why) == MODEM_EMPTY && given == -1 && is_unbroken());
    spoil();
    assert(modem_link_deliver(&link, room, sizeof room, &count) == MODEM_EMPTY && count == 0 && is_unwritten());
    spoil();
    assert(modem_link_wants(&link, &count) == MODEM_EMPTY && count == 0);
    assert(modem_link_offer(&link, room, 1) == MODEM_EMPTY);
    assert(modem_link_ask_break(&link, 1) == MODEM_EMPTY);
    assert(modem_link_set_busy(&link, 1) == MODEM_EMPTY);
    assert(modem_link_standing(&link, &standing) == MODEM_EMPTY);
    assert(modem_link_send(&link, 0, room, sizeof room, &sent, &why) == MODEM_EMPTY && sent.kind == MODEM_ONES && sent.octets == 0 && is_unbroken());
    assert(is_unwritten());
}

static void arguments(void)
{
    modem_decoder decoder = MODEM_NONE;
    modem_encoder encoder = MODEM_NONE;
    modem_meter meter = MODEM_NONE;
    modem_deframer deframer = MODEM_NONE;
    modem_framer framer = MODEM_NONE;
    modem_link link = MODEM_NONE;
    modem_setup setup;
    assert(modem_decoder_new(&decoder, 3, 0) == MODEM_BAD_ARGUMENT && decoder.at == NULL);
    assert(modem_decoder_new(&decoder, 0, 2) == MODEM_BAD_ARGUMENT && decoder.at == NULL);
    assert(modem_encoder_new(&encoder, MODEM_9600_MIDDLE, 0) == MODEM_BAD_ARGUMENT && encoder.at == NULL);
    assert(modem_meter_new(&meter, 2) == MODEM_BAD_ARGUMENT && meter.at == NULL);
    assert(modem_deframer_new(&deframer, 2, 0) == MODEM_BAD_ARGUMENT && deframer.at == NULL);
    assert(modem_deframer_new(&deframer, 0, 7) == MODEM_BAD_ARGUMENT && deframer.at == NULL);
    assert(modem_framer_new(&framer, 138) == MODEM_BAD_ARGUMENT && modem_framer_new(&framer, 2616) == MODEM_BAD_ARGUMENT && framer.at == NULL);
    setup = usual, setup.period = 0;
    assert(modem_link_new(&link, &setup) == MODEM_BAD_ARGUMENT);
    setup = usual, setup.period = 65536;
    assert(modem_link_new(&link, &setup) == MODEM_BAD_ARGUMENT);
    setup = usual, setup.offer.tx_length = 1025;
    assert(modem_link_new(&link, &setup) == MODEM_BAD_ARGUMENT);
    setup = usual, setup.offer.rx_window = 128;
    assert(modem_link_new(&link, &setup) == MODEM_BAD_ARGUMENT);
    setup = usual, setup.tries = 21;
    assert(modem_link_new(&link, &setup) == MODEM_BAD_ARGUMENT);
    setup = usual, setup.role = 2;
    assert(modem_link_new(&link, &setup) == MODEM_BAD_ARGUMENT);
    setup = usual, setup.offer.srej = 2;
    assert(modem_link_new(&link, &setup) == MODEM_BAD_ARGUMENT && link.at == NULL);
}

/* A line that is lost stays so, and one that is finished takes no more. */
static void lines(void)
{
    modem_decoder decoder = MODEM_NONE;
    int32_t code = modem_decoder_new(&decoder, MODEM_9600, MODEM_CALLING);
    assert(code == MODEM_DONE);
    assert(modem_decoder_push(&decoder, parts, 3, bits, sizeof bits, &progress) == MODEM_DONE && progress.read == 1);
    assert(modem_decoder_push(&decoder, parts, 0, bits, 0, &progress) == MODEM_DONE && progress.read == 0 && progress.written == 0);
    spoil();
    assert(modem_decoder_finish(&decoder, bits, MODEM_LAST_BITS - 1, &progress) == MODEM_FULL && is_nothing_done());
    for (int i = 0; i < 100 && code == MODEM_DONE; i++)
        code = modem_decoder_push(&decoder, parts, 2000, bits, sizeof bits, &progress);
    assert(code == MODEM_LOST);
    const uint64_t lost = progress.lost;
    assert(modem_decoder_push(&decoder, parts, 2, bits, sizeof bits, &progress) == MODEM_LOST && progress.lost == lost && progress.read == 0);
    spoil();
    assert(modem_decoder_finish(&decoder, bits, sizeof bits, &progress) == MODEM_LOST && progress.lost == lost);
    assert(progress.read == 0 && progress.written == 0 && is_unwritten());
    modem_free(&decoder);
    assert(decoder.at == NULL);
    assert(modem_decoder_new(&decoder, MODEM_9600, MODEM_CALLING) == MODEM_DONE);
    assert(modem_decoder_finish(&decoder, bits, sizeof bits, &progress) == MODEM_DONE && progress.written == 0);
    spoil();
    assert(modem_decoder_push(&decoder, parts, 2, bits, sizeof bits, &progress) == MODEM_WRONG_KIND && is_nothing_done());
    /* the one before is freed */
    assert(modem_decoder_new(&decoder, MODEM_9600_MIDDLE, MODEM_ANSWERING) == MODEM_DONE);
    /* a handle that leads to something else, past the compiler */
    spoil();
    assert(modem_deframer_push((modem_deframer *)&decoder, bits, 8, room, sizeof room, &found) == MODEM_WRONG_KIND && is_nothing_found());
    assert(modem_deframer_set_check((modem_deframer *)&decoder, 7) == MODEM_WRONG_KIND);
    assert(modem_deframer_octets((modem_deframer *)&decoder, room, sizeof room, &count) == MODEM_WRONG_KIND && count == 0 && is_unwritten());
    spoil();
    assert(modem_detector_push((modem_detector *)&decoder, bits, 8, &count, &kind) == MODEM_WRONG_KIND && count == 0 && kind == 0);
    spoil();
    assert(modem_framer_slot((modem_framer *)&decoder, MODEM_FLAGS, room, 0, bits, sizeof bits, &count) == MODEM_WRONG_KIND && count == 0 && is_unwritten());
    assert(modem_meter_read((modem_meter *)&decoder, &reading) == MODEM_WRONG_KIND && reading.cost == 0 && reading.symbols == 0 && reading.sure == 0);
    assert(modem_link_offer((modem_link *)&decoder, bits, 8) == MODEM_WRONG_KIND);
    modem_free(&decoder);
    modem_free(&decoder);
}

/* Calls of a link out of turn; and one that nobody answers breaks, and stays closed. */
static void turns(void)
{
    modem_link link = MODEM_NONE;
    int32_t code;
    assert(modem_link_new(&link, &usual) == MODEM_DONE);
    assert(modem_link_send(&link, 0, room, sizeof room, &sent, &why) == MODEM_ORDER);
    assert(modem_link_receive(&link, 9, room, 0, &given, &why) == MODEM_BAD_ARGUMENT);
    assert(modem_link_receive(&link, MODEM_ONES, room, 0, &given, &why) == MODEM_DONE && given == -1);
    assert(modem_link_receive(&link, MODEM_ONES, room, 0, &given, &why) == MODEM_ORDER);
    assert(modem_link_send(&link, 0, room, MODEM_WHOLE - 1, &sent, &why) == MODEM_FULL);
    assert(modem_link_send(&link, 2, room, sizeof room, &sent, &why) == MODEM_BAD_ARGUMENT);
    assert(modem_link_send(&link, 0, room, sizeof room, &sent, &why) == MODEM_DONE && sent.kind == MODEM_ODP);
    assert(modem_link_receive(&link, MODEM_ONES, room, 0, &given, &why) == MODEM_ORDER);
    assert(modem_link_deliver(&link, room, MODEM_INFO - 1, &count) == MODEM_FULL);
    assert(modem_link_deliver(&link, room, sizeof room, &count) == MODEM_NOTHING);
    assert(modem_link_wants(&link, &count) == MODEM_NOTHING);
    assert(modem_link_offer(&link, room, 10) == MODEM_BAD_ARGUMENT);
    assert(modem_link_set_busy(&link, 2) == MODEM_BAD_ARGUMENT);
    assert(modem_link_set_busy(&link, 1) == MODEM_DONE);
    assert(modem_link_ask_break(&link, 5) == MODEM_NOTHING);
    memset(room, 0xa5, sizeof room);
    code = modem_link_receive(&link, MODEM_OCTETS, room, sizeof room, &given, &why);
    for (int i = 0; i < 1000 && code == MODEM_DONE; i++) {
        code = modem_link_send(&link, 0, room, sizeof room, &sent, &why);
        if (code == MODEM_DONE) {
            assert(modem_link_deliver(&link, room, sizeof room, &count) == MODEM_NOTHING);
            code = modem_link_receive(&link, MODEM_ONES, room, 0, &given, &why);
        }
    }
    assert(code == MODEM_BROKEN && why.cause == 1);
    assert(modem_link_standing(&link, &standing) == MODEM_DONE && standing.phase == MODEM_CLOSED);
    modem_free(&link);
}

/* What is written is read again; what no frame has isn't written. */
static void frames(void)
{
    modem_deframer deframer = MODEM_NONE;
    modem_frame frame = {.control = 0x6f, .command = 1, .pf = 1, .ns = MODEM_NO_NUMBER, .nr = MODEM_NO_NUMBER};
    size_t octets;
    assert(modem_frame_write(&frame, room, 0, MODEM_ORIGINATOR, 0, room, sizeof room, &octets) == MODEM_DONE && octets == 4);
    assert(modem_frame_bits(room, octets, bits, sizeof bits, &count) == MODEM_DONE);
    assert(modem_deframer_new(&deframer, MODEM_ORIGINATOR, 0) == MODEM_DONE);
    assert(modem_deframer_push(&deframer, bits, count, room, sizeof room, &found) == MODEM_DONE && found.piece == MODEM_FRAME);
    assert(found.read == count && found.ended == count && found.frame.control == 0x6f && found.frame.pf == 1 && found.info == 0);
    assert(modem_deframer_octets(&deframer, room, sizeof room, &count) == MODEM_DONE && count == 4 && room[1] == 0x7f);
    assert(found.fault == 0 && found.octet == 0);
    spoil();
    assert(modem_deframer_push(&deframer, bits, 3, room, MODEM_INFO - 1, &found) == MODEM_FULL && is_nothing_found());
    assert(modem_deframer_set_check(&deframer, 2) == MODEM_BAD_ARGUMENT && modem_deframer_set_check(&deframer, 1) == MODEM_DONE);
    frame.control = 0x6e;
    assert(modem_frame_write(&frame, room, 0, 0, 0, room, sizeof room, &octets) == MODEM_BAD_ARGUMENT);
    frame = (modem_frame){.control = 0x00, .command = 1, .pf = 0, .ns = 128, .nr = 0};
    assert(modem_frame_write(&frame, room, 0, 0, 0, bits, sizeof bits, &octets) == MODEM_BAD_ARGUMENT);
    modem_free(&deframer);
}

/* A frame fits a slot as if each fifth bit had to be stuffed, with 128 symbols left behind it; what no frame's octets are doesn't. */
static void slots(void)
{
    modem_framer framer = MODEM_NONE;
    memset(room, 0xff, sizeof room);
    assert(modem_framer_new(&framer, 464) == MODEM_DONE);
    assert(modem_framer_slot(&framer, MODEM_OCTETS, room, 135, bits, sizeof bits, &count) == MODEM_DONE && count == 4 * 464);
    assert(modem_framer_slot(&framer, MODEM_OCTETS, room, 136, bits, sizeof bits, &count) == MODEM_BAD_ARGUMENT);
    assert(modem_framer_slot(&framer, MODEM_OCTETS, room, 3, bits, sizeof bits, &count) == MODEM_BAD_ARGUMENT);
    assert(modem_framer_slot(&framer, MODEM_ODP, room, 0, bits, 4 * 464 - 1, &count) == MODEM_FULL);
    modem_free(&framer);
}

/* One place less than what the header names is too little room. */
static void sizes(void)
{
    const modem_frame frame = {.control = 0x6f, .command = 1, .pf = 1, .ns = MODEM_NO_NUMBER, .nr = MODEM_NO_NUMBER};
    const modem_offer usual_offer = usual.offer;
    spoil();
    assert(modem_xid_write(&usual_offer, room, MODEM_XID_OCTETS - 1, &count) == MODEM_FULL && count == 0 && is_unwritten());
    assert(modem_xid_write(&usual_offer, room, MODEM_XID_OCTETS, &count) == MODEM_DONE && count == MODEM_XID_OCTETS);
    spoil();
    assert(modem_frame_write(&frame, room, 0, MODEM_ORIGINATOR, 0, bits, MODEM_WHOLE - 1, &count) == MODEM_FULL && count == 0 && is_unwritten());
    assert(modem_frame_write(&frame, room, 0, MODEM_ORIGINATOR, 0, room, MODEM_WHOLE, &count) == MODEM_DONE && count == 4);
    assert(modem_frame_bits(room, 4, bits, MODEM_FRAME_BITS - 1, &count) == MODEM_FULL && count == 0);
    assert(modem_frame_bits(room, 4, bits, MODEM_FRAME_BITS, &count) == MODEM_DONE && count == 74);
}

/* The pattern of a slot is seen once, at the eighth one behind two whole ones. */
static void patterns(void)
{
    modem_framer framer = MODEM_NONE;
    modem_detector detector = MODEM_NONE;
    size_t read;
    assert(modem_framer_new(&framer, 464) == MODEM_DONE && modem_detector_new(&detector) == MODEM_DONE);
    assert(modem_framer_slot(&framer, MODEM_ADP, room, 0, bits, sizeof bits, &count) == MODEM_DONE);
    assert(modem_detector_push(&detector, bits, count, &read, &kind) == MODEM_DONE && kind == MODEM_ADP && read == 71);
    assert(modem_detector_push(&detector, bits, 0, &read, &kind) == MODEM_NOTHING && read == 0);
    modem_free(&framer);
    modem_free(&detector);
}

/* No octet that is written for a bit is anything but 0 or 1. */
static void bits_alone(size_t written)
{
    for (size_t i = 0; i < written; i++)
        assert(bits[i] <= 1);
}

static void random_calls(long calls)
{
    modem_link handles[4] = {MODEM_NONE, MODEM_NONE, MODEM_NONE, MODEM_NONE};
    modem_setup setup = usual;
    for (long i = 0; i < calls; i++) {
        modem_link *link = &handles[rand() % 4];
        void *any = link;
        for (int k = 0; k < 8; k++) {
            parts[rand() % 2000] = (int16_t)rand();
            bits[(size_t)rand() % sizeof bits] = (uint8_t)rand();
            room[rand() % MODEM_WHOLE] = (uint8_t)rand();
        }
        const size_t a = (size_t)rand() % 2001, b = (size_t)rand() % 4097, c = rand() % 3 ? sizeof room : (size_t)rand() % (sizeof room + 1);
        int32_t code = MODEM_DONE;
        modem_frame frame = {room[0], room[1] % 3, room[2] % 2, room[3], room[4]};
        switch (rand() % 32) {
        case 0: code = modem_decoder_new(any, (uint8_t)(rand() % 4), (uint8_t)(rand() % 3)); break;
        case 1: code = modem_deframer_new(any, (uint8_t)(rand() % 3), (uint8_t)(rand() % 3)); break;
        case 2:
            setup.role = (uint8_t)(rand() % 2), setup.period = (uint32_t)rand() % 40, setup.tries = (uint8_t)(rand() % 22);
            code = modem_link_new(link, &setup);
            break;
        case 3: code = modem_encoder_new(any, (uint8_t)(rand() % 4), (uint8_t)(rand() % 3)); break;
        case 4: code = modem_meter_new(any, (uint8_t)(rand() % 3)); break;
        case 5: code = modem_framer_new(any, (uint16_t)(rand() % 3000)); break;
        case 6: case 7:
            code = modem_decoder_push(any, parts, a % 64, bits, b % 128, &progress);
            assert(progress.written <= b % 128 && 2 * progress.read <= a % 64 && (code == MODEM_LOST || progress.lost == 0));
            bits_alone(progress.written);
            break;
        case 8:
            code = modem_decoder_finish(any, bits, b, &progress);
            assert(progress.read == 0 && progress.written <= (code == MODEM_DONE ? b : 0) && (code == MODEM_LOST || progress.lost == 0));
            bits_alone(progress.written);
            break;
        case 9: case 10:
            code = modem_encoder_push(any, bits, b, parts, a, &progress);
            assert(progress.read <= b && 2 * progress.written <= a && progress.lost == 0);
            break;
        case 11:
            code = modem_meter_push(any, bits, b, parts, a, &progress);
            assert(progress.read <= b && progress.read <= 2 * a && progress.written == 0 && progress.lost == 0);
            break;
        case 12: code = modem_meter_read(any, &reading); assert(code == MODEM_DONE || (reading.cost == 0 && reading.symbols == 0 && reading.sure == 0)); break;
        case 13: case 14:
            code = modem_deframer_push(any, bits, b, room, c, &found);
            assert(found.read <= b && found.info <= c && (found.piece == MODEM_FRAME || (found.info == 0 && has_no_frame())));
            assert((code == MODEM_DONE) == (found.piece != MODEM_NO_PIECE) && (found.piece == MODEM_REFUSED) == (found.fault != 0));
            assert(found.fault == 1 || found.fault == 2 || found.octet == 0);
            break;
        case 15: code = modem_deframer_octets(any, room, c, &count); assert(count <= c); break;
        case 16: code = modem_deframer_set_check(any, (uint8_t)(rand() % 3)); break;
        case 17: code = modem_frame_write(&frame, room, c, (uint8_t)(rand() % 3), (uint8_t)(rand() % 3), bits, b, &count); assert(count <= b); break;
        case 18: code = modem_frame_bits(room, c, bits, rand() % 2 ? sizeof bits : b, &count); assert(count <= sizeof bits); bits_alone(count); break;
        case 19: code = modem_framer_slot(any, (uint32_t)rand() % 6, room, c % 64, bits, rand() % 2 ? sizeof bits : b, &count); assert(count <= sizeof bits); bits_alone(count); break;
        case 20: code = modem_xid_read(room, c, &offer, &xid_fault); assert(code == MODEM_DONE ? xid_fault.cause == 0 && xid_fault.at == 0 : xid_fault.cause != 0); break;
        case 21:
            offer = (modem_offer){(uint16_t)(rand() % 1100), 128, 15, (uint8_t)rand(), (uint8_t)(rand() % 3), 0};
            code = modem_xid_write(&offer, room, c, &count);
            assert(count <= c);
            if (code == MODEM_DONE)
                code = modem_xid_agree(&offer, &offer, &terms);
            break;
        case 22: code = modem_link_receive(link, (uint32_t)rand() % 6, room, c, &given, &why); break;
        case 23: code = modem_link_deliver(link, room, c, &count); assert(count <= c); break;
        case 24: code = modem_link_send(link, rand() % 40 == 0, room, c, &sent, &why); assert(sent.octets <= c); break;
        case 25: code = modem_link_offer(link, bits, (size_t)rand() % 200); break;
        case 26: code = modem_link_ask_break(link, (uint8_t)rand()); break;
        case 27: code = modem_link_wants(link, &count); break;
        case 28: code = modem_link_set_busy(link, (uint8_t)(rand() % 3)); break;
        case 29: code = modem_detector_new(any); break;
        case 30: code = modem_detector_push(any, bits, b, &count, &kind); assert(count <= b && (code == MODEM_DONE) == (kind != 0)); break;
        default:
            if (rand() % 50 == 0)
                modem_free(any);
            else
                code = modem_link_standing(link, &standing);
        }
        assert(modem_text(code)[0] != 'u');
    }
    for (int k = 0; k < 4; k++)
        modem_free(&handles[k]);
}

int main(int argc, char **argv)
{
    srand(argc > 2 ? (unsigned)atoi(argv[2]) : 1);
    empty_handles();
    arguments();
    lines();
    turns();
    frames();
    slots();
    sizes();
    patterns();
    random_calls(argc > 1 ? atol(argv[1]) : 300000);
    puts("all as wanted");
    return 0;
}
