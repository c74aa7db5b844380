// The work of crates/bench in plain C: feeds over words, feeds over words with an error enclosure, sheets, and readings of a
// materials file. Rounding is toward zero, and overflow wraps. Everything that the crates check at run time is checked here.
//
//   bench WORDS ENCLOSED SHEETS READINGS <FILE    does so much work, and prints the four digests and the rounds of the sheets
//   bench make RECORDS                            writes a file of records with names of 40 bytes and 9 + 8 coefficients
#include <inttypes.h>
#include <stdbool.h>
#include <stddef.h>
#include <stdint.h>
#include <stdio.h>
#include <stdlib.h>
#include <string.h>

enum { MAX_NODES = 64, MAX_REGISTERS = 16, MAX_COEFFICIENTS = 17 };
static const int64_t LIMIT = (int64_t)1 << 38;

// Formats and rules.

typedef struct { uint32_t whole, fraction; } Format;

static inline uint32_t width(const Format *f) { return f->whole + f->fraction; }
static inline int64_t half(const Format *f) { return (int64_t)1 << (width(f) - 1); }
static inline bool holds(const Format *f, int32_t z) { return -half(f) <= z && z < half(f); }

static bool format_ok(const Format *f) {
    if (f->whole < 1 || f->fraction < 1 || f->whole > 24 || f->fraction > 24) return false;
    return 8 <= width(f) && width(f) <= 24;
}

// The quotient of p over 2^l toward zero, and what is left of p.
static inline int64_t divide(int64_t p, uint32_t l, int64_t *rest) {
    int64_t q = p / ((int64_t)1 << l);
    *rest = p - (int64_t)((uint64_t)q << l);
    return q;
}

// The word that lies whole turns of 2^w from the raw number.
static inline int32_t wrap(const Format *f, int64_t raw) {
    uint32_t spare = 64 - width(f);
    return (int32_t)((int64_t)((uint64_t)raw << spare) >> spare);
}

// The kinds of value.

typedef enum { FINE = 0, FORMAT = 6, WIRING = 12, ROW = 15, SAMPLE = 16, END = 19, RANGE = 20, PEAK = 21, CEILING = 22 } Fault;

typedef struct { int32_t word; } Word;
typedef struct { int32_t word; int64_t low, high; } Enclosed;
typedef struct { uint32_t peak; uint64_t ceiling; } Bound;

static inline Fault word_sample(const Format *f, int32_t u, Word *out) { (void)f; out->word = u; return FINE; }
static inline Fault word_scale(const Format *f, int32_t c, Word v, Word *out) {
    int64_t rest;
    out->word = wrap(f, divide((int64_t)c * v.word, f->fraction, &rest));
    return FINE;
}
static inline Fault word_sum(const Format *f, Word v, Word w, Word *out) {
    out->word = wrap(f, (int64_t)v.word + w.word);
    return FINE;
}
static inline Fault word_difference(const Format *f, Word v, Word w, Word *out) {
    out->word = wrap(f, (int64_t)v.word - w.word);
    return FINE;
}

// The stored word with the ends moved by what storing takes away. A quotient has at most 46 bits, so nothing overflows.
static inline Fault enclosed_keep(const Format *f, int64_t raw, int64_t low, int64_t high, Enclosed *out) {
    int32_t word = wrap(f, raw);
    int64_t by = 4096 * (raw - word);
    low += by;
    high += by;
    if (low < -LIMIT || low > LIMIT || high < -LIMIT || high > LIMIT) return END;
    *out = (Enclosed){word, low, high};
    return FINE;
}
static inline Fault enclosed_sample(const Format *f, int32_t u, Enclosed *out) { (void)f; *out = (Enclosed){u, 0, 0}; return FINE; }
static inline Fault enclosed_scale(const Format *f, int32_t c, Enclosed v, Enclosed *out) {
    uint32_t l = f->fraction;
    int64_t rest, q = divide((int64_t)c * v.word, l, &rest);
    int64_t a = c * v.low, b = c * v.high;
    int64_t low = ((a < b ? a : b) + 4096 * rest) >> l;
    int64_t high = ((a < b ? b : a) + 4096 * rest + (((int64_t)1 << l) - 1)) >> l;
    return enclosed_keep(f, q, low, high, out);
}
static inline Fault enclosed_sum(const Format *f, Enclosed v, Enclosed w, Enclosed *out) {
    return enclosed_keep(f, (int64_t)v.word + w.word, v.low + w.low, v.high + w.high, out);
}
static inline Fault enclosed_difference(const Format *f, Enclosed v, Enclosed w, Enclosed *out) {
    return enclosed_keep(f, (int64_t)v.word - w.word, v.low - w.high, v.high - w.low, out);
}

static inline uint32_t size_of(int32_t c) { return c < 0 ? -(uint32_t)c : (uint32_t)c; }
static inline Fault bound_keep(const Format *f, uint64_t peak, uint64_t ceiling, Bound *out) {
    if (peak > (uint64_t)half(f) - 1) return PEAK;
    if (ceiling > (uint64_t)LIMIT) return CEILING;
    *out = (Bound){(uint32_t)peak, ceiling};
    return FINE;
}
static inline Fault bound_sample(const Format *f, int32_t u, Bound *out) { return bound_keep(f, size_of(u), 0, out); }
static inline Fault bound_scale(const Format *f, int32_t c, Bound v, Bound *out) {
    uint64_t size = size_of(c);
    uint32_t l = f->fraction;
    uint64_t error = (size * v.ceiling + (((uint64_t)1 << l) - 1)) >> l;
    return bound_keep(f, (size * v.peak) >> l, error + 4096, out);
}
static inline Fault bound_sum(const Format *f, Bound v, Bound w, Bound *out) {
    return bound_keep(f, (uint64_t)v.peak + w.peak, v.ceiling + w.ceiling, out);
}
static inline Fault bound_difference(const Format *f, Bound v, Bound w, Bound *out) { return bound_sum(f, v, w, out); }

// Wirings.

typedef enum { INPUT, ZERO, REGISTER, SCALE, SUM, DIFFERENCE } Tag;
typedef struct { Tag tag; size_t p, q; } Node;
typedef struct {
    size_t nodes, registers, coefficients, output;
    Node node[MAX_NODES];
    size_t source[MAX_REGISTERS];
    int32_t coefficient[MAX_COEFFICIENTS];
} Program;

// Direct form 1: the products of delayed inputs and outputs, in one total.
static void direct1(Program *w, const int32_t *b, size_t nb, const int32_t *a, size_t na) {
    size_t n = 0, registers = nb - 1 + na;
    w->node[n++] = (Node){INPUT, 0, 0};
    for (size_t r = 0; r < registers; r++) w->node[n++] = (Node){REGISTER, r, 0};
    size_t products = n, total = n;
    for (size_t c = 0; c < nb + na; c++) w->node[n++] = (Node){SCALE, c, c};
    for (size_t i = 1; i < nb + na; i++) {
        w->node[n] = (Node){i < nb ? SUM : DIFFERENCE, total, products + i};
        total = n++;
    }
    for (size_t r = 0; r < registers; r++) w->source[r] = r;
    if (na > 0) w->source[nb - 1] = total;
    memcpy(w->coefficient, b, nb * sizeof *b);
    memcpy(w->coefficient + nb, a, na * sizeof *a);
    w->nodes = n;
    w->registers = registers;
    w->coefficients = nb + na;
    w->output = total;
}

static bool program_ok(const Format *f, const Program *w) {
    if (w->nodes < 1 || w->nodes > MAX_NODES || w->registers > MAX_REGISTERS || w->coefficients > MAX_COEFFICIENTS) return false;
    for (size_t k = 0; k < w->nodes; k++) {
        const Node *n = &w->node[k];
        if (n->tag == REGISTER && n->p >= w->registers) return false;
        if (n->tag == SCALE && (n->p >= k || n->q >= w->coefficients)) return false;
        if ((n->tag == SUM || n->tag == DIFFERENCE) && (n->p >= k || n->q >= k)) return false;
    }
    if (w->output >= w->nodes) return false;
    for (size_t r = 0; r < w->registers; r++) if (w->source[r] >= w->nodes) return false;
    for (size_t i = 0; i < w->coefficients; i++) if (!holds(f, w->coefficient[i])) return false;
    return true;
}

// The runner, once for each kind: each node's value to its number in the working row; zeros in all places where a node refuses.
#define RUNNER(Value, kind)                                                                                                      \
    static inline Fault kind##_work(const Format *f, const Program *w, const Value *registers, Value *working, int32_t sample) { \
        for (size_t i = 0; i < w->nodes; i++) {                                                                                  \
            const Node *n = &w->node[i];                                                                                         \
            Value v = {0};                                                                                                       \
            Fault fault = FINE;                                                                                                  \
            switch (n->tag) {                                                                                                    \
            case INPUT: fault = kind##_sample(f, sample, &v); break;                                                             \
            case ZERO: break;                                                                                                    \
            case REGISTER: v = registers[n->p]; break;                                                                           \
            case SCALE: fault = kind##_scale(f, w->coefficient[n->q], working[n->p], &v); break;                                 \
            case SUM: fault = kind##_sum(f, working[n->p], working[n->q], &v); break;                                            \
            case DIFFERENCE: fault = kind##_difference(f, working[n->p], working[n->q], &v); break;                              \
            }                                                                                                                    \
            if (fault != FINE) {                                                                                                 \
                memset(working, 0, w->nodes * sizeof *working);                                                                  \
                return fault;                                                                                                    \
            }                                                                                                                    \
            working[i] = v;                                                                                                      \
        }                                                                                                                        \
        return FINE;                                                                                                             \
    }                                                                                                                            \
    static inline void kind##_take(const Program *w, Value *registers, const Value *working) {                                   \
        for (size_t r = 0; r < w->registers; r++) registers[r] = working[w->source[r]];                                          \
    }
RUNNER(Word, word)
RUNNER(Enclosed, enclosed)
RUNNER(Bound, bound)

// Channels.

typedef enum { SETTLED, SOUNDING, FALLING, SPOILT, LAPSED } State;
typedef struct { bool present; uint32_t range; uint64_t count; State state; uint64_t fallen; } Watch;
typedef struct { Format format; Program program; Watch watch; } Channel;

static inline void tell_sample(Watch *w, int32_t sample) {
    if (!w->present || w->state == LAPSED || w->state == SPOILT) return;
    uint32_t size = size_of(sample);
    if (size > w->range) { w->state = SPOILT; return; }
    if (size != 0) { w->state = w->count == 0 ? SETTLED : SOUNDING; return; }
    if (w->state == SOUNDING && w->count > 1) { w->state = FALLING; w->fallen = 1; return; }
    if (w->state == FALLING && w->fallen + 1 < w->count) { w->fallen++; return; }
    w->state = SETTLED;
}

#define CHANNEL(Value, kind)                                                                                                  \
    static Fault kind##_feed(Channel *c, Value *registers, size_t nr, Value *working, size_t nw, int32_t sample, Value *out) { \
        if (nr < c->program.registers || nw < c->program.nodes) return ROW;                                                   \
        if (!holds(&c->format, sample)) return SAMPLE;                                                                        \
        Fault fault = kind##_work(&c->format, &c->program, registers, working, sample);                                       \
        if (fault != FINE) return fault;                                                                                      \
        kind##_take(&c->program, registers, working);                                                                         \
        tell_sample(&c->watch, sample);                                                                                       \
        *out = working[c->program.output];                                                                                    \
        return FINE;                                                                                                          \
    }                                                                                                                         \
    static uint64_t kind##_drive(Channel *c, size_t nr, size_t nw, uint64_t count) {                                          \
        Value registers[MAX_REGISTERS] = {{0}}, working[MAX_NODES] = {{0}};                                                   \
        uint64_t digest = 0;                                                                                                  \
        uint32_t noise = 1;                                                                                                   \
        for (uint64_t i = 0; i < count; i++) {                                                                                \
            noise = noise * 1664525u + 1013904223u;                                                                           \
            Value v;                                                                                                          \
            Fault fault = kind##_feed(c, registers, nr, working, nw, (int32_t)(noise >> 20) - 2048, &v);                      \
            digest = fault == FINE ? kind##_mix(digest, v) : mix(digest, fault);                                              \
        }                                                                                                                     \
        return digest;                                                                                                        \
    }

static inline uint64_t mix(uint64_t digest, uint64_t number) { return digest * 31 + number; }
static inline uint64_t magnitude(int64_t z) { return z < 0 ? -(uint64_t)z : (uint64_t)z; }
static inline uint64_t word_mix(uint64_t digest, Word v) { return mix(digest, magnitude(v.word)); }
static inline uint64_t enclosed_mix(uint64_t digest, Enclosed v) {
    return mix(mix(mix(digest, magnitude(v.word)), magnitude(v.low)), magnitude(v.high));
}
CHANNEL(Word, word)
CHANNEL(Enclosed, enclosed)

// Sheets.

typedef struct { uint32_t peak; uint64_t ceiling, count; uint32_t band; } Figures;
static uint64_t rounds;

static inline bool raises(const Program *w, const Bound *registers, const Bound *working) {
    for (size_t r = 0; r < w->registers; r++) {
        const Bound *v = &working[w->source[r]];
        if (v->peak > registers[r].peak || v->ceiling > registers[r].ceiling) return true;
    }
    return false;
}
static inline bool lowers(const Program *w, const Bound *registers, const Bound *working) {
    for (size_t r = 0; r < w->registers; r++)
        if (working[w->source[r]].peak < registers[r].peak) return true;
    return false;
}

// The least closed box, its figures and its band.
static Fault sheet(const Format *f, const Program *w, int32_t range, uint32_t *peaks, uint64_t *ceilings, uint32_t *band, size_t row, Figures *out) {
    if (!format_ok(f)) return FORMAT;
    if (!program_ok(f, w)) return WIRING;
    if (row < w->registers) return ROW;
    if (range < 0 || range >= half(f)) return RANGE;
    Bound registers[MAX_REGISTERS] = {{0}}, working[MAX_NODES] = {{0}};
    for (;;) {
        Fault fault = bound_work(f, w, registers, working, range);
        if (fault != FINE) {
            for (size_t r = 0; r < w->registers; r++) peaks[r] = 0, ceilings[r] = 0, band[r] = 0;
            return fault;
        }
        rounds++;
        if (!raises(w, registers, working)) break;
        bound_take(w, registers, working);
    }
    for (size_t r = 0; r < w->registers; r++) peaks[r] = registers[r].peak, ceilings[r] = registers[r].ceiling;
    *out = (Figures){working[w->output].peak, working[w->output].ceiling, 0, 0};
    for (;;) {
        Fault fault = bound_work(f, w, registers, working, 0);
        if (fault != FINE) return fault;
        rounds++;
        if (!lowers(w, registers, working)) break;
        bound_take(w, registers, working);
        out->count++;
    }
    for (size_t r = 0; r < w->registers; r++) band[r] = registers[r].peak;
    out->band = working[w->output].peak;
    return FINE;
}

// The materials file.

typedef struct {
    uint8_t *name;
    size_t size;
    uint8_t form, rounding, overflow;
    Format format;
    int32_t *b, *a;
    size_t nb, na;
} Record;

static inline uint32_t be16(const uint8_t *p) { return (uint32_t)p[0] << 8 | p[1]; }
static inline uint32_t be32(const uint8_t *p) { return (uint32_t)p[0] << 24 | (uint32_t)p[1] << 16 | (uint32_t)p[2] << 8 | p[3]; }
static inline const uint8_t *part(const uint8_t *file, size_t i) { return file + be32(file + 2 + 6 * i); }
static inline size_t part_length(const uint8_t *file, size_t i) { return be16(file + 6 + 6 * i); }

static bool words_ok(const uint8_t *p, size_t n, const Format *f) {
    for (size_t i = 0; i < n; i++) if (!holds(f, (int32_t)be32(p + 4 * i))) return false;
    return true;
}

// The number of the first thing that is wrong with a record, or 0.
static int record_fault(const uint8_t *p, size_t length) {
    if (length < 1) return 4;
    size_t size = p[0];
    if (size < 1 || size > 40) return 4;
    if (length < size + 8) return 4;
    for (size_t i = 1; i <= size; i++) if (p[i] < 32 || p[i] > 126) return 4;
    const uint8_t *t = p + 1 + size;
    if (t[0] != '1' && t[0] != '2' && t[0] != 'T') return 5;
    if (t[1] != 'F' && t[1] != 'N' && t[1] != 'Z') return 5;
    if (t[2] != 'W' && t[2] != 'S' && t[2] != 'X') return 5;
    Format f = {t[3], t[4]};
    if (!format_ok(&f)) return 6;
    if (t[5] < 1 || t[5] > 9) return 7;
    if (t[6] > 8) return 7;
    if (length != size + 8 + 4 * (size_t)(t[5] + t[6])) return 8;
    if (!words_ok(t + 7, t[5], &f) || !words_ok(t + 7 + 4 * t[5], t[6], &f)) return 9;
    return 0;
}

// The number of the first thing that is wrong with a file and the record that it is in, or 0.
static int file_fault(const uint8_t *file, size_t length, size_t *record) {
    *record = 0;
    if (length < 2 || length > 65000) return 1;
    size_t count = be16(file), end = 2 + 6 * count;
    if (count > 512) return 2;
    if (end > length) return 2;
    for (size_t i = 0; i < count; i++) {
        if (be32(file + 2 + 6 * i) != end) return 3;
        end += part_length(file, i);
    }
    if (end != length) return 3;
    for (size_t i = 0; i < count; i++) {
        const uint8_t *p = part(file, i);
        *record = i + 1;
        int fault = record_fault(p, part_length(file, i));
        if (fault) return fault;
        for (size_t j = 0; j < i; j++) {
            const uint8_t *q = part(file, j);
            if (q[0] == p[0] && memcmp(q + 1, p + 1, p[0]) == 0) return 10;
        }
    }
    return 0;
}

static int32_t *words(const uint8_t *p, size_t n) {
    int32_t *out = malloc(n * sizeof *out);
    if (out) for (size_t i = 0; i < n; i++) out[i] = (int32_t)be32(p + 4 * i);
    return out;
}

static void free_records(Record *records, size_t count) {
    for (size_t i = 0; i < count; i++) {
        free(records[i].name);
        free(records[i].b);
        free(records[i].a);
    }
    free(records);
}

// All records of a file, or its fault's number; -1 where memory runs out.
static int read_file(const uint8_t *file, size_t length, Record **out, size_t *count) {
    size_t record;
    int fault = file_fault(file, length, &record);
    if (fault) return fault;
    *count = be16(file);
    Record *all = malloc(*count * sizeof *all);
    if (!all && *count) return -1;
    for (size_t i = 0; i < *count; i++) {
        const uint8_t *p = part(file, i), *t = p + 1 + p[0];
        Record *r = &all[i];
        *r = (Record){malloc(p[0]), p[0], t[0], t[1], t[2], {t[3], t[4]}, words(t + 7, t[5]), words(t + 7 + 4 * t[5], t[6]), t[5], t[6]};
        if (!r->name || !r->b || (!r->a && r->na)) {
            free_records(all, i + 1);
            return -1;
        }
        memcpy(r->name, p + 1, p[0]);
    }
    *out = all;
    return 0;
}

// The four works.

static uint64_t sheet_all(const Record *r, uint64_t count) {
    uint64_t digest = 0;
    for (uint64_t i = 0; i < count; i++) {
        Program w;
        uint32_t peaks[MAX_REGISTERS] = {0}, band[MAX_REGISTERS] = {0};
        uint64_t ceilings[MAX_REGISTERS] = {0};
        Figures f;
        direct1(&w, r->b, r->nb, r->a, r->na);
        Fault fault = sheet(&r->format, &w, 2048, peaks, ceilings, band, MAX_REGISTERS, &f);
        digest = mix(mix(digest, peaks[0]), ceilings[0]);
        digest = fault == FINE ? mix(mix(mix(mix(digest, f.peak), f.ceiling), f.count), f.band) : mix(digest, fault);
    }
    return digest;
}

static uint64_t read_all(const uint8_t *file, size_t length, uint64_t count) {
    uint64_t digest = 0;
    for (uint64_t i = 0; i < count; i++) {
        Record *records;
        size_t n;
        int fault = read_file(file, length, &records, &n);
        if (fault) { digest = mix(digest, fault < 0 ? 0 : fault); continue; }
        if (n > 0) {
            const Record *last = &records[n - 1];
            for (size_t k = 0; k < last->size; k++) digest = mix(digest, last->name[k]);
            for (size_t k = 0; k < last->nb; k++) digest = mix(digest, magnitude(last->b[k]));
            for (size_t k = 0; k < last->na; k++) digest = mix(digest, magnitude(last->a[k]));
        }
        free_records(records, n);
    }
    return digest;
}

static Channel open_channel(const Record *r) {
    Channel c = {.format = r->format, .watch = {true, 2047, 100, SETTLED, 0}};
    direct1(&c.program, r->b, r->nb, r->a, r->na);
    if (!format_ok(&c.format) || !program_ok(&c.format, &c.program)) exit(1);
    return c;
}

static void put(uint32_t z, int bytes) { while (bytes--) putchar(z >> 8 * bytes & 255); }

// Records of 116 bytes: words of 12 + 12 bits, b and a with sums below 1, and names that differ at their end.
static void make(uint32_t count) {
    static const int32_t b[9] = {1201, -845, 633, -410, 377, -201, 122, -77, 31};
    static const int32_t a[8] = {-1800, 901, -555, 303, -222, 161, -85, 53};
    put(count, 2);
    for (uint32_t i = 0; i < count; i++) put(2 + 6 * count + 116 * i, 4), put(116, 2);
    for (uint32_t i = 0; i < count; i++) {
        printf("%cpanel of many layers, test series no %03u1ZW%c%c%c%c", 40, (unsigned)i, 12, 12, 9, 8);
        for (int k = 0; k < 9; k++) put((uint32_t)b[k], 4);
        for (int k = 0; k < 8; k++) put((uint32_t)a[k], 4);
    }
}

int main(int argc, char **argv) {
    static uint8_t file[65001];
    uint64_t counts[4] = {0};
    Record *records;
    size_t n;
    if (argc == 3 && strcmp(argv[1], "make") == 0) { make((uint32_t)atoi(argv[2])); return 0; }
    for (int i = 1; i < argc && i <= 4; i++) counts[i - 1] = strtoull(argv[i], NULL, 10);
    size_t length = fread(file, 1, sizeof file, stdin);
    if (read_file(file, length, &records, &n) || n == 0) return 1;
    Channel words = open_channel(&records[0]), enclosed = words;
    printf("words %" PRIu64 "\n", word_drive(&words, words.program.registers, words.program.nodes, counts[0]));
    printf("enclosed %" PRIu64 "\n", enclosed_drive(&enclosed, enclosed.program.registers, enclosed.program.nodes, counts[1]));
    printf("sheets %" PRIu64 "\n", sheet_all(&records[0], counts[2]));
    printf("readings %" PRIu64 "\n", read_all(file, length, counts[3]));
    fprintf(stderr, "rounds %" PRIu64 "\n", rounds);
    free_records(records, n);
    return 0;
}
