/* foreign BITS REC: the bits of a file as spandsp's V.17 transmitter sends them at 9600 bit/s, whose code, map and scrambler are those of V.32's call mode,
   as a recording that begins behind the training. The transmitter gives sound, so a receiver without noise stands here: the carrier is taken off, the filter
   matched, and of all times and phases those are taken by which the symbols lie nearest to points of the map. It prints how far they are, in the mean. */
#include <math.h>
#include <complex.h>
#include <stdint.h>
#include <stdio.h>
#include <stdlib.h>
#include <spandsp.h>

/* TRAINING: how many symbols the long training of V.17 has at least, before scrambled ones are sent by the code. */
enum { RATE = 8000, BAUD = 2400, CARRIER = 1800, MOST = 1 << 20, SPAN = 40, TRAINING = 3300 };
static const double EXCESS = 0.25; /* of the transmitter's pulse */
static FILE *bits;
static int octet, left;
static int16_t sound[MOST];
static double complex base[MOST], symbols[MOST];

static int next_bit(void *user)
{
    (void)user;
    if (left == 0) {
        octet = fgetc(bits);
        if (octet == EOF)
            return SIG_STATUS_END_OF_DATA;
        left = 8;
    }
    left--;
    const int bit = octet & 1;
    octet >>= 1;
    return bit;
}

/* The square root of a raised cosine, at a time in symbols. */
static double pulse(double t)
{
    const double excess = EXCESS;
    if (fabs(t) < 1e-9)
        return 1 - excess + 4 * excess / M_PI;
    if (fabs(fabs(4 * excess * t) - 1) < 1e-9)
        return excess / sqrt(2) * ((1 + 2 / M_PI) * sin(M_PI / (4 * excess)) + (1 - 2 / M_PI) * cos(M_PI / (4 * excess)));
    return (sin(M_PI * t * (1 - excess)) + 4 * excess * t * cos(M_PI * t * (1 + excess))) / (M_PI * t * (1 - 16 * excess * excess * t * t));
}

static int receive(int samples, double start)
{
    const double step = (double)RATE / BAUD;
    int count = 0;
    for (double at = start; at < samples - SPAN && count < MOST; at += step, count++) {
        double complex sum = 0;
        for (int n = (int)at - SPAN; n <= (int)at + SPAN; n++)
            if (n >= 0 && n < samples)
                sum += base[n] * pulse((n - at) / step);
        symbols[count] = sum;
    }
    return count;
}

/* How far a symbol is from the nearest point whose coordinates are whole and of an odd sum. */
static double gap(double complex symbol)
{
    double least = 1e9;
    for (int re = (int)floor(creal(symbol)); re <= (int)floor(creal(symbol)) + 1; re++)
        for (int im = (int)floor(cimag(symbol)) - 1; im <= (int)floor(cimag(symbol)) + 2; im++)
            if ((re + im) % 2 != 0) {
                const double far = cabs(symbol - (re + im * I));
                least = far < least ? far : least;
            }
    return least;
}

static double spread(int from, int to, double complex turn)
{
    double sum = 0;
    for (int at = from; at < to; at++)
        sum += gap(symbols[at] * turn);
    return sum / (to - from);
}

int main(int argc, char **argv)
{
    if (argc != 3 || (bits = fopen(argv[1], "rb")) == NULL)
        return 2;
    v17_tx_state_t *transmitter = v17_tx_init(NULL, 9600, 0, next_bit, NULL);
    v17_tx_power(transmitter, -10.0f);
    int samples = 0, got;
    while (samples + 160 < MOST && (got = v17_tx(transmitter, sound + samples, 160)) > 0)
        samples += got;
    for (int n = 0; n < samples; n++)
        base[n] = sound[n] * cexp(-2 * M_PI * I * CARRIER * n / RATE);
    double least = 1e9, best = 0;
    double complex by = 1;
    for (int place = 0; place < 20; place++) {
        const double start = SPAN + place * (double)RATE / BAUD / 20;
        const int count = receive(samples, start);
        const int from = count / 2, to = from + 300;
        double power = 0;
        for (int at = from; at < to; at++)
            power += creal(symbols[at] * conj(symbols[at]));
        for (int scale = -10; scale <= 10; scale++)
            for (int turn = 0; turn < 90; turn++) {
                const double complex it = sqrt(10 / (power / 300)) * (1 + scale / 100.0) * cexp(I * M_PI / 2 * turn / 90);
                const double far = spread(from, to, it);
                if (far < least)
                    least = far, best = start, by = it;
            }
    }
    const int count = receive(samples, best);
    FILE *out = fopen(argv[2], "wb");
    if (out == NULL)
        return 6;
    fwrite("V32R\0\0\0", 1, 8, out);
    for (int at = TRAINING; at < count; at++) {
        const double complex it = symbols[at] * by * 2048;
        const int16_t parts[2] = {(int16_t)lrint(fmax(-32768, fmin(32767, creal(it)))), (int16_t)lrint(fmax(-32768, fmin(32767, cimag(it))))};
        fwrite(parts, 2, 2, out);
    }
    printf("%d symbols, %.3f of a unit of the map from its points\n", count - TRAINING, least);
    return fclose(out) == 0 ? 0 : 6;
}
