/* The plain decoder of bench/forge, written from docs/FORMATS.md ("The signal", "Decoding"): each survivor is a list of labels that is
   copied whole, and what all of them begin with is released. */
#include <string.h>

enum { STATES = 8, LABELS = 32, DEPTH = 128 };

const int leads_to[STATES][4] = {
    {0, 2, 3, 1}, {4, 7, 5, 6}, {1, 3, 2, 0}, {7, 4, 6, 5}, {2, 0, 1, 3}, {6, 5, 7, 4}, {3, 1, 0, 2}, {5, 6, 4, 7}};
const int point[LABELS][2] = {
    {-4, 1}, {0, -3}, {0, 1}, {4, 1}, {4, -1}, {0, 3}, {0, -1}, {-4, -1},
    {-2, 3}, {-2, -1}, {2, 3}, {2, -1}, {2, -3}, {2, 1}, {-2, -3}, {-2, 1},
    {-3, -2}, {1, -2}, {-3, 2}, {1, 2}, {3, 2}, {-1, 2}, {3, -2}, {-1, -2},
    {1, 4}, {-3, 0}, {1, 0}, {1, -4}, {-1, -4}, {3, 0}, {-1, 0}, {-1, 4}};

typedef struct {
    int exists;
    long long cost;
    unsigned char labels[DEPTH + 1]; /* those that aren't released, and the newest last */
} survivor;

static survivor old[STATES], new[STATES];
static int undecided;

/* A survivor with one label more. */
typedef struct {
    const survivor *front; /* none at first */
    long long cost;
    int label;
} way;

/* Whether the first is less: compared from the last label to the first. */
static int is_less(const way *one, const way *other) {
    if (one->label != other->label) return one->label < other->label;
    for (int i = undecided - 1; i >= 0; i--)
        if (one->front->labels[i] != other->front->labels[i]) return one->front->labels[i] < other->front->labels[i];
    return 0;
}

static void push(const int *sample) {
    way best[STATES] = {{0}};
    long long distance[LABELS];
    for (int label = 0; label < LABELS; label++) {
        long long re = sample[0] - 2048 * point[label][0], im = sample[1] - 2048 * point[label][1];
        distance[label] = re * re + im * im;
    }
    for (int from = 0; from < STATES; from++)
        for (int y = 0; y < 4 && old[from].exists; y++)
            for (int low = 0; low < 4; low++) {
                int label = 16 * (from & 1) + 8 * (y & 1) + 4 * (y >> 1) + low;
                way it = {&old[from], old[from].cost + distance[label], label}, *to = &best[leads_to[from][y]];
                if (!to->front || it.cost < to->cost || (it.cost == to->cost && is_less(&it, to))) *to = it;
            }
    for (int state = 0; state < STATES; state++) {
        new[state].exists = best[state].front != NULL;
        if (!new[state].exists) continue;
        new[state].cost = best[state].cost;
        memcpy(new[state].labels, best[state].front->labels, (size_t)undecided);
        new[state].labels[undecided] = (unsigned char)best[state].label;
    }
    memcpy(old, new, sizeof old);
    undecided++;
}

/* With how many labels all survivors begin; `any` is one of them. */
static int shared(const survivor *any) {
    for (int i = 0; i < undecided; i++)
        for (int state = 0; state < STATES; state++)
            if (old[state].exists && old[state].labels[i] != any->labels[i]) return i;
    return undecided;
}

/* Reads samples from state 0 on. Writes each label that is released, and with which sample it is, and answers how many they are. `lost` is
   the sample with which the line is lost, and there it ends, or -1. */
long decode(const int *samples, long count, unsigned char *released, int *with, long *lost) {
    long done = 0;
    memset(old, 0, sizeof old);
    old[0].exists = 1;
    undecided = 0;
    *lost = -1;
    for (long at = 0; at < count; at++) {
        push(samples + 2 * at);
        int any = 0;
        while (!old[any].exists) any++;
        int front = shared(&old[any]);
        for (int i = 0; i < front; i++) {
            released[done] = old[any].labels[i];
            with[done++] = (int)at;
        }
        undecided -= front;
        for (int state = 0; state < STATES && front > 0; state++) memmove(old[state].labels, old[state].labels + front, (size_t)undecided);
        if (undecided > DEPTH) {
            *lost = at;
            break;
        }
    }
    return done;
}
