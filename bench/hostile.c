/* Runs the program on random inputs, each kind made from a seed, and looks at what it answers and leaves: hostile PROGRAM FOLDER KIND SEED COUNT
   A run that crashes, answers a status that its kind can't have, or leaves what is no beginning of what it should, is said, and its input is kept in FOLDER. */
#define _GNU_SOURCE
#include <fcntl.h>
#include <spawn.h>
#include <stdint.h>
#include <stdio.h>
#include <stdlib.h>
#include <string.h>
#include <sys/wait.h>
#include <unistd.h>

static uint64_t state;
static const char *program, *folder;

static uint32_t word(void) {
    state = state * 6364136223846793005u + 1442695040888963407u;
    return (uint32_t)(state >> 33);
}
static uint32_t below(uint32_t n) { return word() % n; }

static char buffer[1 << 20];
static size_t length;

static void put(const void *octets, size_t count) {
    if (length + count <= sizeof buffer) {
        memcpy(buffer + length, octets, count);
        length += count;
    }
}
static void put_octet(unsigned octet) {
    unsigned char one = (unsigned char)octet;
    put(&one, 1);
}
static void put_text(const char *text) { put(text, strlen(text)); }
static void put_number(long long number) {
    char text[32];
    snprintf(text, sizeof text, "%lld", number);
    put_text(text);
}

enum { PATHS = 12, SAID = PATHS - 1 };
static char path[PATHS][512];
static void save(int at) {
    int file = open(path[at], O_WRONLY | O_CREAT | O_TRUNC, 0600);
    if (file < 0 || write(file, buffer, length) != (ssize_t)length) {
        perror(path[at]);
        exit(2);
    }
    close(file);
}
static size_t load(int at, char *into, size_t room) {
    int file = open(path[at], O_RDONLY);
    if (file < 0) return (size_t)-1;
    ssize_t count = read(file, into, room);
    close(file);
    return count < 0 ? 0 : (size_t)count;
}

/* Whether the file at `part` is a beginning of the one at `whole`. */
static int begins(int part, int whole) {
    static char a[1 << 20], b[1 << 20];
    size_t m = load(part, a, sizeof a), n = load(whole, b, sizeof b);
    if (m == (size_t)-1) return 1;
    return m <= n && memcmp(a, b, m) == 0;
}
static int same(int one, int other) { return begins(one, other) && begins(other, one); }

/* One bit of a file is turned, or the file is cut; where it is empty it stays. */
static void damage(int at) {
    size_t count = load(at, buffer, sizeof buffer);
    if (count == (size_t)-1 || count == 0) return;
    length = count;
    if (below(3))
        buffer[below(count)] ^= 1 << below(8);
    else
        length = below(count);
    save(at);
}

extern char **environ;

static int run(char **words) {
    posix_spawn_file_actions_t actions;
    pid_t child;
    int status;
    posix_spawn_file_actions_init(&actions);
    posix_spawn_file_actions_addopen(&actions, 1, path[SAID], O_WRONLY | O_CREAT | O_TRUNC, 0600);
    if (posix_spawn(&child, program, &actions, NULL, words, environ) != 0) {
        perror(program);
        exit(2);
    }
    posix_spawn_file_actions_destroy(&actions);
    waitpid(child, &status, 0);
    return WIFEXITED(status) ? WEXITSTATUS(status) : -1;
}

static char said[1 << 20];
static size_t lines(void) {
    size_t count = load(SAID, said, sizeof said - 1), found = 0;
    if (count == (size_t)-1) count = 0;
    said[count] = 0;
    for (size_t i = 0; i < count; i++) found += said[i] == '\n';
    return found;
}
static int says(const char *beginning) { return strncmp(said, beginning, strlen(beginning)) == 0; }

/* The octets of a frame with its check, as bits between flags, some of them damaged. */
static void put_stream(void) {
    static unsigned char bits[1 << 16];
    size_t count = 0;
    unsigned frames = below(6);
    for (unsigned f = 0; f < frames; f++) {
        static const unsigned kinds[] = {0x6f, 0x43, 0x63, 0x0f, 0x87, 0x03, 0xaf, 0xe3, 0x01, 0x05, 0x09, 0x0d, 0x00};
        unsigned char frame[300];
        size_t size = 0;
        unsigned kind = kinds[below(13)], crc = 0xffff;
        frame[size++] = below(8) ? (below(2) ? 3 : 1) : word();
        frame[size++] = kind < 0x10 && kind != 0x0f && kind != 0x03 ? (kind ? kind : 2 * below(128)) : kind | (below(2) ? 0x10 : 0);
        unsigned more = below(4) ? below(5) : below(250);
        for (unsigned i = 0; i < more; i++) frame[size++] = below(6) ? 2 * below(4) : word();
        for (size_t i = 0; i < size; i++) {
            crc ^= frame[i];
            for (int k = 0; k < 8; k++) crc = crc & 1 ? crc >> 1 ^ 0x8408 : crc >> 1;
        }
        crc = ~crc;
        frame[size++] = crc & 255;
        frame[size++] = crc >> 8 & 255;
        if (below(10) == 0) frame[below(size)] ^= 1 << below(8);
        for (int k = 0; k < 8; k++) bits[count++] = 0x7e >> k & 1;
        unsigned ones = 0;
        for (size_t i = 0; i < size; i++)
            for (int k = 0; k < 8; k++) {
                unsigned bit = frame[i] >> k & 1;
                bits[count++] = bit;
                ones = bit ? ones + 1 : 0;
                if (ones == 5) {
                    if (below(200)) bits[count++] = 0;
                    ones = 0;
                }
            }
        for (int k = 0; k < 8; k++) bits[count++] = 0x7e >> k & 1;
        for (unsigned i = below(20); i > 0; i--) bits[count++] = below(2);
    }
    if (below(3) == 0)
        for (unsigned i = below(400); i > 0; i--) bits[count++] = below(2);
    for (unsigned i = below(4); i > 0 && count; i--) bits[below(count)] ^= 1;
    for (size_t i = 0; i < count; i += 8) {
        unsigned octet = 0;
        for (size_t k = 0; k < 8 && i + k < count; k++) octet |= bits[i + k] << k;
        put_octet(octet);
    }
}

static void put_script(void) {
    static const char *firsts[] = {"delay", "k", "n401", "n400", "srej", "check32", "lose", "hit", "noise", "break", "busy", "speed", "#", ""};
    for (unsigned n = below(8); n > 0; n--) {
        unsigned at = below(14), words = below(12) ? (unsigned[]){2, 2, 2, 1, 1, 1, 3, 5, 5, 3, 3, 1, 3, 0}[at] : below(7);
        put_text(firsts[at]);
        for (unsigned i = 0; i < words; i++) {
            put_text(below(20) ? " " : "\t ");
            if (i == 0 && at != 0 && at != 3 && below(30))
                put_text(below(2) ? "orig" : "answ");
            else if (below(60) == 0)
                put_text((const char *[]){"-1", "-0", "x", "99999999999999999999999", "+3", "0007"}[below(6)]);
            else if (i == 1 && at >= 6)
                put_number(below(3) ? below(30) : below(20000));
            else
                put_number(at == 0 ? 1 + below(below(8) ? 6 : 62) : at == 3 ? 1 + below(below(8) ? 4 : 22) : below(4) ? below(10) : below(3000));
        }
        put_text(below(30) ? "\n" : "\r\n");
    }
}

static int try_xid(void) {
    char hex[1200], *words[] = {"modem", "xid", hex, NULL};
    static const char *parts[] = {"82", "800003", "80", "F00002AAAA", "FF", "030389", "8900", "05020400", "07010F", "08017F", "0602FFFF", "0000", "81"};
    hex[0] = 0;
    for (unsigned n = below(9); n > 0; n--) strcat(hex, parts[below(13)]);
    for (unsigned n = below(40); n > 0 && below(2); n--) strcat(hex, (const char *[]){"0", "1", "8", "f", "A", "c"}[below(6)]);
    if (below(20) == 0 && hex[0]) hex[below(strlen(hex))] = 'g';
    int status = run(words);
    return lines() == 1 && ((status == 0 && says("window ")) || (status == 3 && (says("bad hex: at ") || says("bad xid: "))));
}

static int try_frames(void) {
    char *words[] = {"modem", "frames", below(2) ? "orig" : "answ", path[0], NULL};
    length = 0;
    put_stream();
    save(0);
    int status = run(words);
    size_t count = lines();
    char *last = strstr(said, "pieces ");
    return status == 0 && last && (size_t)atol(last + 7) == count - 1;
}

static int try_decode(void) {
    char *words[] = {"modem", "decode", path[0], path[1], NULL};
    static const int at[32][2] = {{-4, 1}, {0, -3}, {0, 1}, {4, 1}, {4, -1}, {0, 3}, {0, -1}, {-4, -1}, {-2, 3}, {-2, -1}, {2, 3}, {2, -1}, {2, -3}, {2, 1}, {-2, -3}, {-2, 1}, {-3, -2}, {1, -2}, {-3, 2}, {1, 2}, {3, 2}, {-1, 2}, {3, -2}, {-1, -2}, {1, 4}, {-3, 0}, {1, 0}, {1, -4}, {-1, -4}, {3, 0}, {-1, 0}, {-1, 4}};
    length = 0;
    static const unsigned header[] = {0x56, 0x33, 0x32, 0x52, 0, 0, 0, 0};
    for (int i = 0; i < 8; i++) put_octet(below(200) ? (i == 4 ? below(2) : header[i]) : word());
    for (unsigned n = below(300), noise = below(3) ? below(1500) : 30000; n > 0; n--) {
        unsigned label = below(32);
        for (int k = 0; k < 2; k++) {
            int value = below(40) ? 2048 * at[label][k] + (int)below(2 * noise + 1) - (int)noise : 0;
            put_octet(value & 255);
            put_octet(value >> 8 & 255);
        }
    }
    length -= below(20) ? 0 : below(length);
    save(0);
    unlink(path[1]);
    int status = run(words);
    struct { char octets[1 << 16]; } got;
    size_t count = load(1, got.octets, sizeof got.octets);
    if (lines() != 1) return 0;
    if (status == 0) return says("octets ") && (size_t)atol(said + 7) == count;
    return (status == 3 && says("bad recording: at ")) || (status == 7 && says("line lost: "));
}

static void save_files(int count) {
    for (int file = 0; file < count; file++) {
        length = 0;
        for (unsigned n = below(below(4) ? 40 : 700); n > 0; n--) put_octet(word());
        save(file);
    }
    length = 0;
    put_script();
    save(count);
}

static int try_run(void) {
    char *words[] = {"modem", "run", path[0], path[1], path[2], path[3], path[4], path[5], NULL};
    save_files(2);
    for (int i = 3; i < 6; i++) unlink(path[i]);
    int status = run(words);
    if (lines() != 1 || !begins(3, 1) || !begins(4, 0)) return 0;
    if (status == 0) return says("done ") && begins(1, 3) && begins(0, 4);
    return (status == 3 && says("bad script: line ")) || (status == 7 && says("line lost: ")) || (status == 8 && says("not detected: ")) ||
           (status == 9 && says("link lost: ")) || (status == 10 && says("chance match: "));
}

/* A recorded run, its tap and its audit, and then those of a recording and of a trace that are damaged. */
static int try_record(void) {
    char *record[] = {"modem", "record", path[0], path[1], path[2], path[3], path[4], path[5], path[6], path[7], NULL};
    char *tap[] = {"modem", "tap", path[6], path[7], path[2], path[8], path[9], path[10], NULL};
    char *audit[] = {"modem", "audit", path[0], path[1], path[2], path[5], NULL};
    save_files(2);
    for (int i = 3; i < 11; i++) unlink(path[i]);
    int status = run(record), told, damaged = 6 + below(2);
    if (lines() != 1 || !begins(3, 1) || !begins(4, 0)) return 0;
    if (status == 3) return says("bad script: line ");
    if (status != 0 && (status < 7 || status > 10)) return 0;
    told = run(tap);
    if (lines() != 1 || told != (status == 7 || status == 10 ? status : 0) || (told == 0 && !says("turns "))) return 0;
    if (!same(3, 8) || !same(4, 9) || !same(5, 10)) return 0;
    if (run(audit) != 0 || lines() != 1 || !says("true ")) return 0;
    damage(damaged);
    told = run(tap);
    if (lines() != 1 || !begins(8, 1) || !begins(9, 0)) return 0;
    if (told != 0 && told != 3 && told != 7 && told != 10 && !(told == 14 && says("bad tap: "))) return 0;
    damage(5);
    return run(audit) == 13 && lines() == 1 && says("false line ");
}

static int try_pair(void) {
    char *words[] = {"modem", "pair", path[0], path[1], path[2], path[3], path[4], path[5], path[6], path[7], path[8], path[9], path[10], NULL};
    save_files(4);
    for (int i = 5; i < 11; i++) unlink(path[i]);
    int status = run(words);
    if (lines() != 1 || !begins(5, 1) || !begins(6, 0) || !begins(7, 3) || !begins(8, 2)) return 0;
    if (status == 0) return says("done ") && begins(1, 5) && begins(0, 6) && begins(3, 7) && begins(2, 8);
    return (status == 3 && says("bad script: line ")) || (status == 7 && says("line lost: ")) || (status == 8 && says("not detected: link ")) ||
           (status == 9 && says("link lost: link ")) || (status == 10 && says("chance match: "));
}

static int try_peer(void) {
    char *words[] = {"modem", "peer", below(2) ? "orig" : "answ", path[0], path[1], path[2], path[3], NULL};
    length = 0;
    for (unsigned n = below(300); n > 0; n--) put_octet(word());
    save(0);
    length = 0;
    for (unsigned n = below(10); n > 0; n--) put_stream();
    save(1);
    for (int i = 2; i < 4; i++) unlink(path[i]);
    int status = run(words);
    if (lines() != 1) return 0;
    return (status == 0 && says("done ")) || (status == 8 && says("not detected: ")) || (status == 9 && says("link lost: ")) ||
           (status == 12 && says("peer fault: "));
}

static int try_pickup(void) {
    char *words[] = {"modem", "pickup", path[0], NULL};
    length = 0;
    static const unsigned header[] = {0x56, 0x33, 0x32, 0x52, 0, 0, 0, 0};
    for (int i = 0; i < 8; i++) put_octet(below(200) ? (i == 4 ? below(2) : header[i]) : word());
    for (unsigned n = below(2000); n > 0; n--) put_octet(word());
    save(0);
    int status = run(words);
    lines();
    return (status == 0 && strstr(said, "pieces ")) || (status == 3 && strstr(said, "bad recording: at ")) || (status == 7 && strstr(said, "line lost: "));
}

int main(int count, char **words) {
    static const struct { const char *name; int (*try)(void); } kinds[] = {{"xid", try_xid}, {"frames", try_frames}, {"decode", try_decode}, {"run", try_run}, {"record", try_record}, {"pair", try_pair}, {"peer", try_peer}, {"pickup", try_pickup}};
    if (count != 6) {
        fprintf(stderr, "usage: hostile PROGRAM FOLDER KIND SEED COUNT\n");
        return 2;
    }
    program = words[1];
    folder = words[2];
    for (int i = 0; i < PATHS; i++) snprintf(path[i], sizeof path[i], "%s/%s-%s-%d", folder, words[3], words[4], i);
    for (size_t k = 0; k < sizeof kinds / sizeof *kinds; k++)
        if (strcmp(kinds[k].name, words[3]) == 0) {
            long bad = 0, tries = atol(words[5]);
            state = strtoull(words[4], NULL, 10) * 2654435761u + k;
            for (long n = 0; n < tries; n++) {
                uint64_t before = state;
                if (!kinds[k].try()) {
                    bad++;
                    fprintf(stderr, "%s: try %ld of seed %s (state %llu) is wrong: %s", words[3], n, words[4], (unsigned long long)before, said);
                    for (int i = 0; i < SAID && bad < 4; i++) {
                        char kept[600];
                        snprintf(kept, sizeof kept, "%.500s-wrong-%ld", path[i], n);
                        rename(path[i], kept);
                    }
                }
            }
            for (int i = 0; i < PATHS; i++) unlink(path[i]);
            printf("%ld\n", bad);
            return bad != 0;
        }
    fprintf(stderr, "hostile: no such kind: %s\n", words[3]);
    return 2;
}
