/* frames REC orig|answ: the frames in a recording, from its middle on: samples to bits to frames as they come, and where each frame ended.
 *
 * It gives what `modem pickup` does, and the information in hexadecimal digits. */
#include "modem.h"
#include "recording.h"

static const char *name_of(uint8_t control)
{
    switch (control) {
    case 0x00: return "i";
    case 0x01: return "rr";
    case 0x05: return "rnr";
    case 0x09: return "rej";
    case 0x0d: return "srej";
    case 0x6f: return "sabme";
    case 0x43: return "disc";
    case 0x63: return "ua";
    case 0x0f: return "dm";
    case 0x87: return "frmr";
    case 0x03: return "ui";
    case 0xaf: return "xid";
    default: return "test";
    }
}

static void print_piece(const modem_found *found, const uint8_t *info)
{
    static const char *const pieces[] = {"", "frame", "ragged", "aborted", "too long", "too short", "bad check", "refused"};
    printf("bit %llu %s", (unsigned long long)found->ended, pieces[found->piece]);
    if (found->piece == MODEM_FRAME) {
        printf(" %s %s", name_of(found->frame.control), found->frame.command ? "cmd" : "rsp");
        if (found->frame.ns != MODEM_NO_NUMBER)
            printf(" s=%u", found->frame.ns);
        if (found->frame.nr != MODEM_NO_NUMBER)
            printf(" r=%u", found->frame.nr);
        printf(" p=%u", found->frame.pf);
        for (size_t i = 0; i < found->info; i++)
            printf("%s%02x", i == 0 ? " " : "", info[i]);
    }
    putchar('\n');
}

/* The frames that end in these bits. */
static int32_t print_frames(modem_deframer *deframer, const uint8_t *bits, size_t count)
{
    uint8_t info[MODEM_INFO];
    modem_found found;
    int32_t code;
    for (size_t at = 0; (code = modem_deframer_push(deframer, bits + at, count - at, info, sizeof info, &found)) == MODEM_DONE; at += found.read)
        print_piece(&found, info);
    return code == MODEM_NOTHING ? MODEM_DONE : code;
}

int main(int argc, char **argv)
{
    FILE *in = argc == 3 ? fopen(argv[1], "rb") : NULL;
    uint8_t mode;
    int is_4800;
    if (in == NULL || read_header(in, &mode, &is_4800) != 0 || is_4800) {
        fprintf(stderr, "usage: frames REC orig|answ\n");
        return 2;
    }

    modem_decoder decoder = MODEM_NONE;
    modem_deframer deframer = MODEM_NONE;
    int32_t code = modem_decoder_new(&decoder, MODEM_9600_MIDDLE, mode);
    if (code == MODEM_DONE)
        code = modem_deframer_new(&deframer, argv[2][0] == 'a' ? MODEM_ANSWERER : MODEM_ORIGINATOR, 0);
    int16_t parts[480];
    uint8_t bits[1024];
    for (size_t count; code == MODEM_DONE && (count = read_parts(in, parts, 480)) > 0;) {
        modem_progress progress;
        size_t at = 0;
        do {
            code = modem_decoder_push(&decoder, parts + at, count - at, bits, sizeof bits, &progress);
            const int32_t framed = print_frames(&deframer, bits, progress.written);
            if (framed != MODEM_DONE)
                code = framed;
            at += 2 * progress.read;
        } while (code == MODEM_FULL);
    }
    modem_free(&decoder);
    modem_free(&deframer);
    fclose(in);
    if (code != MODEM_DONE)
        fprintf(stderr, "frames: %s\n", modem_text(code));
    return code != MODEM_DONE;
}
