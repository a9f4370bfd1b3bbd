/* libmodem: V.32 trellis decoding and a V.42 link for C, C++ and whoever calls C.
 *
 * Samples to bits and back, bits to frames and back, an end of the link, XID, and a meter of how well a line is decoded. Everything streams: a call takes
 * as many samples or bits as you have, and memory is taken in the ..._new calls alone. The calls keep no global state and start no thread; a handle may
 * go from one thread to another, as long as one call at a time has it.
 *
 * Each call is proved to be safe and to end whatever numbers it is given, and to do what docs/LIBRARY.md says of it. What you owe, since nothing can check it:
 *
 *  - a handle is MODEM_NONE or what these calls left in it, and it isn't copied;
 *  - no pointer is null (one to no octets may be any other address), arrays are as long as their counts, and what a call writes is passed to it once;
 *  - malloc, realloc and free are those of one allocator, and no call is made from a signal handler.
 *
 * A bit is an octet of its own, 0 or 1; of what is read the lowest bit counts. The first bit of an octet is its lowest.
 * Of a room for bits or samples read only what a call counts as written: what stood behind it may be gone.
 */
#ifndef MODEM_H
#define MODEM_H

#include <stddef.h>
#include <stdint.h>

#ifdef __cplusplus
extern "C" {
#endif

#if defined(__GNUC__)
#define MODEM_CALL __attribute__((nonnull, warn_unused_result))
#else
#define MODEM_CALL
#endif

/* ---- codes ---- */

/* What a call returns: 0 it is done, above 0 something to look at, below 0 a mistake of the caller's, or no memory. A call that returns a code below 0
 * leaves the handle and the room as they were. Where more than one would do, that of the handle comes first, then that of the arguments, then that of the
 * room; but modem_deframer_octets looks for octets before it looks at the room. MODEM_ORDER comes behind these. MODEM_LATE of a deframer comes behind that
 * of the room, of a decoder before all but that of the handle, of a link behind MODEM_ORDER, and in modem_link_ask_break before MODEM_NOTHING.
 * Whatever a call returns, what it has nothing to say of is 0; but modem_link_standing, modem_xid_read and modem_xid_agree leave a struct as it was that they
 * can't fill. */
enum modem_code {
    MODEM_DONE = 0,
    MODEM_NOTHING = 1,      /* there is nothing to give */
    MODEM_FULL = 2,         /* there is no room: use what was written, and call again, with more room where nothing was written */
    MODEM_LOST = 3,         /* the line is lost, and stays so: more than 128 symbols are undecided */
    MODEM_BROKEN = 4,       /* the link broke; the end goes on as a closed one */
    MODEM_NO_MEMORY = -1,
    MODEM_EMPTY = -2,       /* the handle is empty */
    MODEM_WRONG_KIND = -3,  /* the handle leads to something else, or to a decoder that is finished */
    MODEM_BAD_ARGUMENT = -4,
    MODEM_ORDER = -5,       /* it isn't its turn: receive, deliver until MODEM_NOTHING, send */
    MODEM_LATE = -6         /* no line has more than 2^50 samples, no link more than 2^40 turns, no deframer 2^64 bits, no meter more than 2^24 octets */
};

/* A code in words, and the library's version, as "1.0.10". Neither is to be freed. */
const char *modem_text(int32_t code);
const char *modem_version(void);

/* ---- handles ---- */

/* A handle is a pointer that the library owns, in a struct that you own. Each kind has its own type, so that the compiler refuses another one. */
typedef struct modem_decoder { void *at; } modem_decoder;
typedef struct modem_encoder { void *at; } modem_encoder;
typedef struct modem_meter { void *at; } modem_meter;
typedef struct modem_deframer { void *at; } modem_deframer;
typedef struct modem_detector { void *at; } modem_detector;
typedef struct modem_framer { void *at; } modem_framer;
typedef struct modem_link { void *at; } modem_link;
#define MODEM_NONE { NULL }

/* Frees what a handle of any kind leads to, and empties it. An empty one may be freed. A ..._new call frees what the handle led to before. */
void modem_free(void *handle) __attribute__((nonnull));

/* ---- samples to bits, and back ---- */

enum modem_line {
    MODEM_9600 = 0,         /* V.32's trellis-coded 9600 bit/s, from its first symbol on */
    MODEM_9600_MIDDLE = 1,  /* the same from any symbol on: the first bits are given once the scrambler is known */
    MODEM_4800 = 2          /* 4800 bit/s in a four-point signal of this project's own, not V.32's */
};

/* The scrambler, by the modem that transmits: the one that called, or the one that answered. */
enum modem_mode { MODEM_CALLING = 0, MODEM_ANSWERING = 1 };

/* How far a call came. */
typedef struct modem_progress {
    size_t read;    /* samples that were read, or bits */
    size_t written; /* bits that were written, or samples */
    uint64_t lost;  /* with MODEM_LOST: the symbol since which too many are undecided, counted from 0; else 0 */
} modem_progress;

int32_t modem_decoder_new(modem_decoder *decoder, uint8_t line, uint8_t mode) MODEM_CALL;

/* Samples more: `parts` has real and imaginary parts by turns, and `count` says how many parts; 2048 is one unit of the map of V.32, so that coordinates of
 * points go from -8192 to 8192. An odd part at the end isn't read. Bits come as they are decided, with a delay of up to 128 symbols: none to 516 of them a sample.
 * MODEM_DONE: all samples are read, and no bit waits. MODEM_FULL: bits wait, and fewer than four places are left; call again with the samples behind
 * progress->read. How many these are depends on how the samples were divided. Of MODEM_9600_MIDDLE the first six symbols
 * give no bits, and want the four places all the same. MODEM_LOST: all that was decided before is given, and no more samples are read, now and later. */
int32_t modem_decoder_push(modem_decoder *decoder, const int16_t *parts, size_t count, uint8_t *bits, size_t room, modem_progress *progress) MODEM_CALL;

/* The bits that still waited, at the line's end; of a line from its middle there are none. MODEM_FULL where bits wait that `push` is to give first; else
 * MODEM_LOST where the line is lost; else MODEM_FULL where the room is less than MODEM_LAST_BITS. Bits are written with MODEM_DONE alone: once it returned
 * that, the decoder is finished. */
#define MODEM_LAST_BITS 512
int32_t modem_decoder_finish(modem_decoder *decoder, uint8_t *bits, size_t room, modem_progress *progress) MODEM_CALL;

/* MODEM_9600_MIDDLE isn't one to be sent. */
int32_t modem_encoder_new(modem_encoder *encoder, uint8_t line, uint8_t mode) MODEM_CALL;

/* Bits more, and the samples that they become: four bits a sample at 9600 bit/s, two at 4800. MODEM_DONE: fewer bits than that are left, which are to come
 * again; MODEM_FULL: there is no room for two parts. */
int32_t modem_encoder_push(modem_encoder *encoder, const uint8_t *bits, size_t count, int16_t *parts, size_t room, modem_progress *progress) MODEM_CALL;

/* ---- how well a line is decoded ---- */

/* What a meter reads. Es/N0 is 10*log10(10.0*2048*2048*symbols/cost) dB: from some 15 dB on, the decoder is in lock. A wrong mode has full marks. */
typedef struct modem_reading {
    uint64_t cost;    /* the squared distances between the samples and what the bits become, in squares of 1/2048 of a unit */
    uint64_t symbols; /* of so many samples */
    uint8_t sure;     /* 1 where that is below 2.5 squares of a unit in all: what a decoder of this mode gives then begins these bits, at most 126 symbols
                         behind. It doesn't say that they were sent: other bits may be as near at the end, and a wrong mode is sure too */
} modem_reading;

/* A meter of a line at 9600 bit/s from its first symbol on. */
int32_t modem_meter_new(modem_meter *meter, uint8_t mode) MODEM_CALL;

/* Bits that were decoded, and the samples of which they were: eight bits and two samples at a time, as many as both are enough for. progress->read is the
 * bits; a fourth of them the samples. */
int32_t modem_meter_push(modem_meter *meter, const uint8_t *bits, size_t count, const int16_t *parts, size_t parts_count, modem_progress *progress) MODEM_CALL;
int32_t modem_meter_read(modem_meter *meter, modem_reading *reading) MODEM_CALL;

/* ---- bits to frames, and back ---- */

enum modem_role { MODEM_ORIGINATOR = 0, MODEM_ANSWERER = 1 };

/* What ended. */
enum modem_piece {
    MODEM_NO_PIECE = 0,
    MODEM_FRAME = 1,
    MODEM_RAGGED = 2,    /* bits between flags that are no stuffing of whole octets */
    MODEM_ABORTED = 3,   /* seven ones */
    MODEM_TOO_LONG = 4,  /* more than 1031 octets */
    MODEM_TOO_SHORT = 5, /* fewer than four */
    MODEM_BAD_CHECK = 6, /* the frame check doesn't pass */
    MODEM_REFUSED = 7    /* it passes, and the octets are no frame: see `fault` */
};

/* The fields of a frame but for its information. */
typedef struct modem_frame {
    uint8_t control; /* the kind: 00 I, 01 RR, 05 RNR, 09 REJ, 0d SREJ, 6f SABME, 43 DISC, 63 UA, 0f DM, 87 FRMR, 03 UI, af XID, e3 TEST */
    uint8_t command; /* 1 a command, 0 a response */
    uint8_t pf;      /* poll or final */
    uint8_t ns, nr;  /* N(S) and N(R), or MODEM_NO_NUMBER where the kind has none */
} modem_frame;
#define MODEM_NO_NUMBER 255

typedef struct modem_found {
    size_t read;       /* bits of this call that were read: up to and with the one at which the piece ended */
    uint64_t ended;    /* bits received in all, with these; 0 with MODEM_FULL */
    size_t info;       /* octets of information that were written */
    uint8_t piece;     /* enum modem_piece */
    uint8_t fault;     /* of MODEM_REFUSED: 1 the address, 2 the control octet, 3 too short, 4 too long; else 0 */
    uint8_t octet;     /* the address or the control octet that was refused, else 0 */
    modem_frame frame; /* of MODEM_FRAME; else zeros, and MODEM_NO_NUMBER twice */
} modem_found;

#define MODEM_INFO 1024  /* the most octets of information */
#define MODEM_WHOLE 1031 /* of a frame with its check */

/* `sender` is the end whose bits are received. check32: 1 where I and S frames have a check of 32 bits, as both ends agreed on by XID, else 0. */
int32_t modem_deframer_new(modem_deframer *deframer, uint8_t sender, uint8_t check32) MODEM_CALL;
int32_t modem_deframer_set_check(modem_deframer *deframer, uint8_t check32) MODEM_CALL;

/* Bits more, up to the one at which a piece ends: MODEM_DONE where one did, MODEM_NOTHING where all are read and none did. MODEM_FULL where the room for
 * information is less than MODEM_INFO. */
int32_t modem_deframer_push(modem_deframer *deframer, const uint8_t *bits, size_t count, uint8_t *info, size_t room, modem_found *found) MODEM_CALL;

/* The octets with their check of the piece that ended with the last bit, as modem_link_receive takes them; MODEM_NOTHING where none is whole. */
int32_t modem_deframer_octets(modem_deframer *deframer, uint8_t *octets, size_t room, size_t *count) MODEM_CALL;

/* The patterns that the ends send before the link is up, MODEM_ODP and MODEM_ADP: bits more, up to the one with which a pattern is seen, that is two whole
 * ones in a row. MODEM_DONE where one is, MODEM_NOTHING where all bits are read and none was. */
int32_t modem_detector_new(modem_detector *detector) MODEM_CALL;
int32_t modem_detector_push(modem_detector *detector, const uint8_t *bits, size_t count, size_t *read, uint32_t *kind) MODEM_CALL;

/* A frame's octets with its check. MODEM_FULL where the room is less than MODEM_WHOLE, however short the frame is. MODEM_BAD_ARGUMENT where no frame has these
 * fields and this information, or sender or check32 is neither 0 nor 1. */
int32_t modem_frame_write(const modem_frame *frame, const uint8_t *info, size_t info_count, uint8_t sender, uint8_t check32,
                          uint8_t *octets, size_t room, size_t *count) MODEM_CALL;

/* What a line carries in a turn, or in a slot of bits. */
enum modem_slot {
    MODEM_ONES = 0,
    MODEM_ODP = 1,   /* the originator's detection pattern */
    MODEM_ADP = 2,   /* the answerer's */
    MODEM_OCTETS = 3, /* a frame's octets with their check */
    MODEM_FLAGS = 4
};

/* The bits of a frame for a line that isn't cut into slots: four flags, the frame, and its closing flag. MODEM_FULL where the room is less than
 * MODEM_FRAME_BITS, which is always enough; MODEM_BAD_ARGUMENT where the octets are fewer than 4 or more than MODEM_WHOLE. Send flags (01111110) between
 * frames, as many as you like. */
#define MODEM_FRAME_BITS 10460
int32_t modem_frame_bits(const uint8_t *octets, size_t count, uint8_t *bits, size_t room, size_t *written) MODEM_CALL;

/* A writer of slots of so many symbols of four bits each, 139 to 2615: those of `modem run` have 464 where frames carry 128 octets. Flags run on from one slot to
 * the next. */
int32_t modem_framer_new(modem_framer *framer, uint16_t symbols) MODEM_CALL;

/* The bits of the next slot: four times its symbols. Behind a frame there are flags for 128 symbols at least, since a receiver may be so far behind. A frame
 * of n octets fits where 47 + 8n + 8n/5 (rounded down, as if each fifth bit had to be stuffed) is at most 4 times (symbols - 128), and n is 4 to 1031; else
 * MODEM_BAD_ARGUMENT. With fewer than 150 symbols none fits. */
int32_t modem_framer_slot(modem_framer *framer, uint32_t kind, const uint8_t *octets, size_t count, uint8_t *bits, size_t room, size_t *written) MODEM_CALL;

/* ---- XID ---- */

/* What an end offers: of what it transmits (tx) and of what it receives (rx). */
typedef struct modem_offer {
    uint16_t tx_length, rx_length; /* octets of information, 1 to 1024: N401 */
    uint8_t tx_window, rx_window;  /* segments, 1 to 127: k */
    uint8_t srej;                  /* 1 for selective reject */
    uint8_t check32;               /* 1 for the check of 32 bits */
} modem_offer;

/* What two ends agree on, for the segments of the originator and of the answerer. */
typedef struct modem_terms {
    uint16_t originator_length, answerer_length;
    uint8_t originator_window, answerer_window;
    uint8_t srej, check32;
} modem_terms;

/* Why an information field is no offer. */
typedef struct modem_xid_fault {
    size_t at;     /* the octet at which, from 0; 0 where it is one */
    uint8_t cause; /* 0 it is one, 1 its format, 2 a second group of parameters, 3 a length, 4 a value below its least, 5 a parameter that stands again */
} modem_xid_fault;

/* MODEM_BAD_ARGUMENT where the field is no offer: `fault` says why, and `offer` stays. */
int32_t modem_xid_read(const uint8_t *info, size_t count, modem_offer *offer, modem_xid_fault *fault) MODEM_CALL;

#define MODEM_XID_OCTETS 23 /* what modem_xid_write writes */
/* MODEM_BAD_ARGUMENT where a length isn't 1 to 1024, a window isn't 1 to 127, or srej or check32 is neither 0 nor 1; MODEM_FULL where the room is less than
 * MODEM_XID_OCTETS. */
int32_t modem_xid_write(const modem_offer *offer, uint8_t *info, size_t room, size_t *count) MODEM_CALL;
/* Lengths and windows are taken as they are; MODEM_BAD_ARGUMENT where srej or check32 is neither 0 nor 1. */
int32_t modem_xid_agree(const modem_offer *originator, const modem_offer *answerer, modem_terms *terms) MODEM_CALL;

/* ---- an end of the link, turn by turn ---- */

typedef struct modem_setup {
    modem_offer offer;
    uint32_t period; /* turns that it waits for an answer, 1 to 65535: T401 */
    uint8_t tries;   /* 1 to 20: N400 */
    uint8_t role;    /* enum modem_role */
} modem_setup;

/* Why a link broke. What the cause doesn't name is 0. */
typedef struct modem_fault {
    uint32_t cause;        /* 0 it didn't, 1 no pattern of the answerer's was seen, 2 all tries are spent, 3 an acknowledgement of what wasn't sent,
                              4 the other end began anew, or sent FRMR, 5 it refused or hung up */
    uint8_t nr, low, high; /* of 3: the N(R), and the numbers between which it should have been */
    uint64_t acknowledged; /* of 2 and 4: segments that are acknowledged */
    uint64_t taken;        /* of 4: segments that were taken */
    uint64_t since;        /* of 2: the turn in which the first of the periods began */
} modem_fault;

typedef struct modem_sent {
    uint32_t kind; /* enum modem_slot */
    size_t octets; /* of MODEM_OCTETS */
} modem_sent;

enum modem_phase { MODEM_DETECTING, MODEM_NEGOTIATING, MODEM_ESTABLISHING, MODEM_CONNECTED, MODEM_RELEASING, MODEM_CLOSED };

typedef struct modem_standing {
    uint32_t phase;   /* enum modem_phase */
    uint32_t whole;   /* 1 while it is connected, its file has ended, and all of it is acknowledged */
    uint32_t check32; /* 1 where I and S frames have a check of 32 bits now */
} modem_standing;

int32_t modem_link_new(modem_link *link, const modem_setup *setup) MODEM_CALL;

/* In each turn: receive; deliver until MODEM_NOTHING; offer while it wants; send. `kind` is enum modem_slot; octets that are no frame of the other end's are
 * nothing. `given` is the length of the other end's break in units of 10 ms, or -1. MODEM_ORDER where this turn was received already, or `deliver` hasn't said
 * MODEM_NOTHING. After MODEM_BROKEN the turn still ends by `send`. */
int32_t modem_link_receive(modem_link *link, uint32_t kind, const uint8_t *octets, size_t count, int32_t *given, modem_fault *why) MODEM_CALL;

/* The next segment in order; room for MODEM_INFO. */
int32_t modem_link_deliver(modem_link *link, uint8_t *octets, size_t room, size_t *count) MODEM_CALL;

/* How long a piece it takes next, or MODEM_NOTHING. A shorter one ends the file, and an empty one ends it without a segment. MODEM_BAD_ARGUMENT where it wants
 * none, or none that long. */
int32_t modem_link_wants(modem_link *link, size_t *count) MODEM_CALL;
int32_t modem_link_offer(modem_link *link, const uint8_t *piece, size_t count) MODEM_CALL;

/* A break of this length, in units of 10 ms; MODEM_NOTHING where it isn't connected, one waits, or eight turns of rest aren't over. */
int32_t modem_link_ask_break(modem_link *link, uint8_t length) MODEM_CALL;

/* 1: its user asks for a pause from now on; 0: no more. Before it is connected that is forgotten. */
int32_t modem_link_set_busy(modem_link *link, uint8_t busy) MODEM_CALL;
int32_t modem_link_standing(modem_link *link, modem_standing *standing) MODEM_CALL;

/* What it transmits in this turn, with which the turn ends; room for MODEM_WHOLE. Deliver first: what isn't delivered is gone where the link breaks or is released
 * in this call. `release` of 1 tells a connected originator to take the link down. MODEM_ORDER where this turn wasn't received. */
int32_t modem_link_send(modem_link *link, uint8_t release, uint8_t *octets, size_t room, modem_sent *sent, modem_fault *why) MODEM_CALL;

#ifdef __cplusplus
}
#endif
#endif
