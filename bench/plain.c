/* The plain C grader: reading, joining, marks, classes and the report. It refuses by the scope paper's table and checks nothing beyond it. */
#include "plain.h"
#include <string.h>

enum {
    MOST_BYTES = 32768,
    MOST_TYPES = 16,
    MOST_EDGES = 64,
    MOST_BRIDGES = 256,
    MOST_INSTANCES = 128,
    MOST_VECTORS = 256,
    MOST_FAULTS = 2048,
    MOST_INPUTS = 64,
    MOST_LABELS = 12,
    NODES = 32,
    LISTS = 128,
    WORDS = 4
};

enum { EXHAUSTIVE = 255, NO_FAULTS = 0 };

struct edge {
    uint8_t first, second, is_p, count;
    uint8_t labels[4];
};

struct type {
    uint8_t highest, output, labels, count;
    struct edge edges[MOST_EDGES];
};

struct bridge {
    uint8_t list, kind, first, second;
};

/* What each label is tied to is the place of a signal: primary inputs stand at 0 to 63, the outputs of instances from 64 on. */
struct instance {
    uint8_t type, choice;
    uint8_t signals[MOST_LABELS];
};

/* The bridges of a user list in sum: how many, the highest node, and one more than the highest label. */
struct list {
    unsigned count, node, labels;
};

struct row {
    uint8_t instance, kind, first, second;
};

typedef uint64_t plane[WORDS];

/* The circuit that was read last. The planes of primary inputs are part of it; those of outputs are worked out in grading. */
static struct {
    unsigned inputs, types, bridges, instances, vectors, faults;
    struct type type[MOST_TYPES];
    struct bridge bridge[MOST_BRIDGES];
    struct list list[LISTS];
    struct instance instance[MOST_INSTANCES];
    plane ones[MOST_INPUTS + MOST_INSTANCES];
    plane zeros[MOST_INPUTS + MOST_INSTANCES];
} circuit;

static struct row rows[MOST_FAULTS];

/* ---- joining */

static void find_on(const struct type *t, const uint64_t *ones, const uint64_t *zeros, uint64_t *restrict on)
{
    for (unsigned i = 0; i < t->count; i++) {
        const struct edge *e = &t->edges[i];
        const uint64_t *values = e->is_p ? zeros : ones;
        uint64_t word = 0;
        for (unsigned j = 0; j < e->count; j++)
            word |= values[e->labels[j]];
        on[i] = word;
    }
}

/* The vectors under which each node is joined to a rail, in synchronous rounds until one adds nothing. */
static void join(const struct type *t, const uint64_t *restrict on, unsigned rail, uint64_t *restrict joined)
{
    uint64_t next[NODES] = {0};
    uint64_t added;
    memset(joined, 0, sizeof next);
    joined[rail] = next[rail] = ~(uint64_t)0;
    do {
        for (unsigned i = 0; i < t->count; i++) {
            unsigned a = t->edges[i].first, b = t->edges[i].second;
            next[a] |= joined[b] & on[i];
            next[b] |= joined[a] & on[i];
        }
        added = 0;
        for (unsigned m = 0; m <= t->highest; m++) {
            added |= joined[m] ^ next[m];
            joined[m] = next[m];
        }
    } while (added);
}

static uint64_t first_ones(unsigned n)
{
    return n < 64 ? ((uint64_t)1 << n) - 1 : ~(uint64_t)0;
}

/* Whether a type's output is joined to exactly one rail under each setting of its labels, 64 settings at a time. */
static int is_complementary(const struct type *t)
{
    uint64_t ones[MOST_LABELS] = {0xaaaaaaaaaaaaaaaa, 0xcccccccccccccccc, 0xf0f0f0f0f0f0f0f0, 0xff00ff00ff00ff00, 0xffff0000ffff0000, 0xffffffff00000000};
    uint64_t zeros[MOST_LABELS], on[MOST_EDGES], supply[NODES], ground[NODES];
    unsigned settings = 1u << t->labels;
    for (unsigned from = 0; from < settings; from += 64) {
        for (unsigned l = 6; l < MOST_LABELS; l++)
            ones[l] = from >> l & 1 ? ~(uint64_t)0 : 0;
        for (unsigned l = 0; l < MOST_LABELS; l++)
            zeros[l] = ~ones[l];
        find_on(t, ones, zeros, on);
        join(t, on, 1, supply);
        join(t, on, 0, ground);
        if (~(supply[t->output] ^ ground[t->output]) & first_ones(settings - from))
            return 0;
    }
    return 1;
}

/* ---- reading: each function answers a refusal's number, or 0 with the field taken into the circuit */

static unsigned read_inputs(const uint8_t *body, size_t length)
{
    if (length != 2)
        return 5;
    circuit.inputs = body[0] << 8 | body[1];
    if (circuit.inputs < 1 || circuit.inputs > MOST_INPUTS)
        return 7;
    memset(circuit.ones, 0, circuit.inputs * sizeof(plane));
    memset(circuit.zeros, 0, circuit.inputs * sizeof(plane));
    return 0;
}

static unsigned read_type(const uint8_t *body, size_t length)
{
    if (length != 3)
        return 5;
    if (circuit.types == MOST_TYPES)
        return 6;
    unsigned h = body[0], o = body[1], k = body[2];
    if (h < 2 || h > 31 || o < 2 || o > h || k < 1 || k > MOST_LABELS)
        return 7;
    struct type *t = &circuit.type[circuit.types++];
    t->highest = h;
    t->output = o;
    t->labels = k;
    t->count = 0;
    return 0;
}

static unsigned read_edge(const uint8_t *body, size_t length)
{
    struct type *t = &circuit.type[circuit.types - 1];
    if (length < 3 || length > 6)
        return 5;
    if (t->count == MOST_EDGES)
        return 6;
    unsigned a = body[0], b = body[1], o = t->output;
    if (a > t->highest || b > t->highest)
        return 7;
    struct edge *e = &t->edges[t->count];
    for (size_t i = 2; i < length; i++) {
        if (body[i] >= t->labels)
            return 7;
        e->labels[i - 2] = body[i];
    }
    int is_p = a >= 1 && a <= o && b >= 1 && b <= o;
    int is_n = (a == 0 || a >= o) && (b == 0 || b >= o);
    if (a == b || !(is_p || is_n))
        return 8;
    e->first = a;
    e->second = b;
    e->is_p = is_p;
    e->count = length - 2;
    t->count++;
    return 0;
}

static unsigned larger(unsigned a, unsigned b)
{
    return a < b ? b : a;
}

static unsigned read_bridge(const uint8_t *body, size_t length)
{
    if (length != 4)
        return 5;
    if (circuit.bridges == MOST_BRIDGES)
        return 6;
    unsigned list = body[0], kind = body[1], first = body[2], second = body[3];
    if (list < 1 || list > 127 || kind > 1 || first > 31)
        return 7;
    if (kind == 0 ? second > 31 || first == second : second >= MOST_LABELS)
        return 7;
    circuit.bridge[circuit.bridges++] = (struct bridge){list, kind, first, second};
    struct list *l = &circuit.list[list];
    l->count++;
    l->node = larger(l->node, kind == 0 ? larger(first, second) : first);
    l->labels = larger(l->labels, kind == 0 ? 0 : second + 1);
    return 0;
}

/* The signals of an instance's references, or 10. */
static unsigned read_references(const uint8_t *body, unsigned k, uint8_t *signals)
{
    for (unsigned i = 0; i < k; i++) {
        unsigned n = body[2 * i] << 8 | body[2 * i + 1];
        if (n >= 1 && n <= circuit.inputs)
            signals[i] = n - 1;
        else if (n >= 32768 && 65536 - n <= circuit.instances)
            signals[i] = MOST_INPUTS - 1 + 65536 - n;
        else
            return 10;
    }
    return 0;
}

static unsigned read_instance(const uint8_t *body, size_t length)
{
    if (length % 2 || length < 4 || length > 26)
        return 5;
    if (circuit.instances == MOST_INSTANCES)
        return 6;
    unsigned number = body[0], choice = body[1];
    if (number < 1 || number > circuit.types || (choice > 127 && choice != EXHAUSTIVE))
        return 7;
    const struct type *t = &circuit.type[number - 1];
    struct instance *one = &circuit.instance[circuit.instances];
    if (length != 2 + 2u * t->labels || read_references(body + 2, t->labels, one->signals))
        return 10;
    unsigned faults = 0, h = t->highest;
    if (choice == EXHAUSTIVE) {
        faults = (h + 1) * h / 2 + (h + 1) * t->labels;
    } else if (choice != NO_FAULTS) {
        const struct list *l = &circuit.list[choice];
        if (l->node > h || l->labels > t->labels)
            return 11;
        if (l->count == 0)
            return 12;
        faults = l->count;
    }
    if (circuit.faults + faults > MOST_FAULTS)
        return 13;
    one->type = number - 1;
    one->choice = choice;
    circuit.instances++;
    circuit.faults += faults;
    return 0;
}

static unsigned read_vector(const uint8_t *body, size_t length)
{
    if (length != circuit.inputs)
        return 5;
    if (circuit.vectors == MOST_VECTORS)
        return 6;
    unsigned w = circuit.vectors / 64, v = circuit.vectors % 64;
    for (size_t i = 0; i < length; i++) {
        if (body[i] != '0' && body[i] != '1' && body[i] != 'X')
            return 7;
        circuit.ones[i][w] |= (uint64_t)(body[i] == '1') << v;
        circuit.zeros[i][w] |= (uint64_t)(body[i] == '0') << v;
    }
    circuit.vectors++;
    return 0;
}

static unsigned read_field(unsigned tag, const uint8_t *body, size_t length)
{
    switch (tag) {
    case 1:
        return read_inputs(body, length);
    case 2:
        return read_type(body, length);
    case 3:
        return read_edge(body, length);
    case 4:
        return read_bridge(body, length);
    case 5:
        return read_instance(body, length);
    default:
        return read_vector(body, length);
    }
}

/* Whether a tag may not stand behind the last one, which is 0 at the start of the file. */
static int is_misplaced(unsigned last, unsigned tag)
{
    if (last == 0 || tag == 1)
        return last != 0 || tag != 1;
    if (tag == 3)
        return last != 2 && last != 3;
    return tag == 2 ? last > 3 : last > tag;
}

/* Whether the tag ends a type that is not complementary. */
static int ends_bad_type(unsigned last, unsigned tag)
{
    return tag != 3 && (last == 2 || last == 3) && !is_complementary(&circuit.type[circuit.types - 1]);
}

static void clear_circuit(void)
{
    circuit.inputs = circuit.types = circuit.bridges = circuit.instances = circuit.vectors = circuit.faults = 0;
    memset(circuit.list, 0, sizeof circuit.list);
}

/* Reads the field at an offset, behind one with the tag `last`. Answers a refusal's number, or 0 and how long the field is. */
static unsigned read_at(const uint8_t *file, size_t n, size_t at, unsigned last, size_t *size)
{
    if (n - at < 3)
        return 2;
    unsigned tag = file[at];
    size_t length = file[at + 1] << 8 | file[at + 2];
    if (n - at - 3 < length)
        return 2;
    if (tag < 1 || tag > 6)
        return 3;
    if (is_misplaced(last, tag))
        return 4;
    if (ends_bad_type(last, tag))
        return 9;
    *size = 3 + length;
    return read_field(tag, file + at + 3, length);
}

/* Reads a file into the circuit. Answers the refusal's number and place, or 0. */
static unsigned read_file(const uint8_t *file, size_t n, size_t *place)
{
    size_t at = 0, type_at = 0, size = 0;
    unsigned last = 0, number = 0;
    if (n > MOST_BYTES) {
        *place = 0;
        return 1;
    }
    clear_circuit();
    while (at < n && !(number = read_at(file, n, at, last, &size))) {
        last = file[at];
        if (last == 2)
            type_at = at;
        at += size;
    }
    if (!number && ends_bad_type(last, 0))
        number = 9;
    if (!number && !(circuit.instances && circuit.vectors))
        number = 14;
    *place = number == 9 ? type_at : at;
    return number;
}

/* ---- rows, marks and classes */

/* The rows of the exhaustive list, from a place on; answers where they end. */
static unsigned list_all(unsigned at, unsigned instance, unsigned h, unsigned k)
{
    for (unsigned a = 0; a <= h; a++)
        for (unsigned b = a + 1; b <= h; b++)
            rows[at++] = (struct row){instance, 0, a, b};
    for (unsigned a = 0; a <= h; a++)
        for (unsigned l = 0; l < k; l++)
            rows[at++] = (struct row){instance, 1, a, l};
    return at;
}

/* The rows of a user list, in file order. */
static unsigned list_chosen(unsigned at, unsigned instance, unsigned list)
{
    for (unsigned i = 0; i < circuit.bridges; i++) {
        const struct bridge *b = &circuit.bridge[i];
        if (b->list == list)
            rows[at++] = (struct row){instance, b->kind, b->first, b->second};
    }
    return at;
}

static unsigned list_rows(unsigned at, unsigned i)
{
    const struct instance *one = &circuit.instance[i];
    const struct type *t = &circuit.type[one->type];
    if (one->choice == EXHAUSTIVE)
        return list_all(at, i + 1, t->highest, t->labels);
    if (one->choice != NO_FAULTS)
        return list_chosen(at, i + 1, one->choice);
    return at;
}

/* What is known of an instance under all vectors: each label's planes, and the vectors under which each node is joined to each rail. */
struct values {
    plane ones[MOST_LABELS], zeros[MOST_LABELS];
    plane supply[NODES], ground[NODES];
};

/* Works out word w of an instance's values, and of its output's planes. */
static void value_word(unsigned i, unsigned w, struct values *values)
{
    const struct instance *one = &circuit.instance[i];
    const struct type *t = &circuit.type[one->type];
    uint64_t ones[MOST_LABELS], zeros[MOST_LABELS], on[MOST_EDGES], supply[NODES], ground[NODES];
    for (unsigned l = 0; l < t->labels; l++) {
        values->ones[l][w] = ones[l] = circuit.ones[one->signals[l]][w];
        values->zeros[l][w] = zeros[l] = circuit.zeros[one->signals[l]][w];
    }
    find_on(t, ones, zeros, on);
    join(t, on, 1, supply);
    join(t, on, 0, ground);
    for (unsigned m = 0; m <= t->highest; m++) {
        values->supply[m][w] = supply[m];
        values->ground[m][w] = ground[m];
    }
    circuit.ones[MOST_INPUTS + i][w] = supply[t->output];
    circuit.zeros[MOST_INPUTS + i][w] = ground[t->output];
}

/* The marks of some rows: one end joined to supply and the other to ground, where a label at 1 is taken as supply and at 0 as ground. */
static void mark_rows(unsigned from, unsigned to, const struct values *values, const uint64_t *masks, uint64_t *restrict matrix)
{
    for (unsigned r = from; r < to; r++) {
        const struct row *row = &rows[r];
        const uint64_t *supply = values->supply[row->first];
        const uint64_t *ground = values->ground[row->first];
        const uint64_t *ones = row->kind ? values->ones[row->second] : values->supply[row->second];
        const uint64_t *zeros = row->kind ? values->zeros[row->second] : values->ground[row->second];
        for (unsigned w = 0; w < WORDS; w++)
            matrix[WORDS * r + w] = ((supply[w] & zeros[w]) | (ground[w] & ones[w])) & masks[w];
    }
}

/* A number for each row that two rows of an instance share exactly when they are one class. */
static void find_keys(unsigned from, unsigned to, const uint8_t *signals, unsigned k, uint16_t *keys)
{
    unsigned firsts[MOST_LABELS];
    for (unsigned l = 0; l < k; l++)
        for (firsts[l] = 0; signals[firsts[l]] != signals[l];)
            firsts[l]++;
    for (unsigned r = from; r < to; r++) {
        unsigned a = rows[r].first, b = rows[r].second;
        if (rows[r].kind)
            keys[r] = 1024 + 16 * a + firsts[b];
        else
            keys[r] = a < b ? 32 * a + b : 32 * b + a;
    }
}

/* Numbers the rows of an instance after `count` classes: the class of the first earlier row with the same key, or a new one. Answers the new count. */
static unsigned number_rows(unsigned from, unsigned to, const uint16_t *keys, unsigned count, uint16_t *restrict classes)
{
    for (unsigned r = from; r < to; r++) {
        unsigned j = from;
        while (keys[j] != keys[r])
            j++;
        classes[r] = j < r ? classes[j] : ++count;
    }
    return count;
}

/* The classes that begin in these rows and are found: rows of one class have equal marks, so the first row tells. */
static unsigned count_found(unsigned from, unsigned to, unsigned count, const uint16_t *classes, const uint64_t *matrix)
{
    unsigned found = 0;
    for (unsigned r = from; r < to; r++) {
        const uint64_t *row = &matrix[WORDS * r];
        if (classes[r] > count) {
            count = classes[r];
            found += (row[0] | row[1] | row[2] | row[3]) != 0;
        }
    }
    return found;
}

/* Writes rows and classes of the circuit; answers the number of classes and of found ones. */
static void grade_circuit(uint64_t *matrix, uint16_t *classes, uint64_t *class_count, uint64_t *found_count)
{
    static struct values values;
    static uint16_t keys[MOST_FAULTS];
    uint64_t masks[WORDS];
    unsigned from = 0, count = 0, found = 0;
    for (unsigned w = 0; w < WORDS; w++)
        masks[w] = circuit.vectors > 64 * w ? first_ones(circuit.vectors - 64 * w) : 0;
    for (unsigned i = 0; i < circuit.instances; i++) {
        const struct instance *one = &circuit.instance[i];
        unsigned to = list_rows(from, i);
        for (unsigned w = 0; 64 * w < circuit.vectors; w++)
            value_word(i, w, &values);
        mark_rows(from, to, &values, masks, matrix);
        find_keys(from, to, one->signals, circuit.type[one->type].labels, keys);
        unsigned after = number_rows(from, to, keys, count, classes);
        found += count_found(from, to, count, classes, matrix);
        count = after;
        from = to;
    }
    *class_count = count;
    *found_count = found;
}

void plain_grade(const uint8_t *file, size_t n, uint64_t *matrix, size_t words, uint16_t *classes, size_t entries, uint64_t answer[6])
{
    size_t place;
    unsigned number = read_file(file, n, &place);
    if (!number && words < WORDS * (size_t)circuit.faults) {
        number = 15;
        place = WORDS * circuit.faults;
    } else if (!number && entries < circuit.faults) {
        number = 22;
        place = circuit.faults;
    }
    memset(answer, 0, 6 * sizeof *answer);
    if (number) {
        answer[0] = number;
        answer[1] = place;
        return;
    }
    answer[2] = circuit.vectors;
    answer[3] = circuit.faults;
    grade_circuit(matrix, classes, &answer[4], &answer[5]);
}

/* ---- the report */

static char *put_text(char *to, const char *text)
{
    while (*text)
        *to++ = *text++;
    return to;
}

static char *put_number(char *to, uint64_t n)
{
    char digits[20];
    unsigned count = 0;
    do {
        digits[count++] = '0' + n % 10;
        n /= 10;
    } while (n);
    while (count)
        *to++ = digits[--count];
    return to;
}

/* A number, and behind it a space or the line's end. */
static char *put_field(char *to, uint64_t n, char behind)
{
    to = put_number(to, n);
    *to++ = behind;
    return to;
}

static char *put_row(char *to, const struct row *row, unsigned class_number, const uint64_t *marks)
{
    unsigned count = 0, first = 0;
    to = put_field(to, row->instance, ' ');
    *to++ = row->kind ? 'i' : 'n';
    *to++ = ' ';
    to = put_field(to, row->first, ' ');
    to = put_field(to, row->second, ' ');
    to = put_field(to, class_number, ' ');
    for (unsigned v = 0; v < circuit.vectors; v++)
        *to++ = '0' + (marks[v / 64] >> v % 64 & 1);
    *to++ = ' ';
    for (unsigned w = WORDS; w-- > 0;) {
        count += __builtin_popcountll(marks[w]);
        if (marks[w])
            first = 64 * w + __builtin_ctzll(marks[w]) + 1;
    }
    to = put_field(to, count, ' ');
    return put_field(to, first, '\n');
}

size_t plain_report(const uint8_t *file, size_t n, char *text)
{
    static uint64_t matrix[WORDS * MOST_FAULTS];
    static uint16_t classes[MOST_FAULTS];
    uint64_t answer[6];
    char *to = text;
    plain_grade(file, n, matrix, WORDS * MOST_FAULTS, classes, MOST_FAULTS, answer);
    if (answer[0]) {
        to = put_field(put_text(to, "refused "), answer[0], ' ');
        to = put_field(put_text(to, "at "), answer[1], '\n');
        return to - text;
    }
    to = put_field(put_text(to, "vectors "), answer[2], ' ');
    to = put_field(put_text(to, "faults "), answer[3], ' ');
    to = put_field(put_text(to, "classes "), answer[4], ' ');
    to = put_field(put_text(to, "found "), answer[5], '\n');
    for (unsigned r = 0; r < answer[3]; r++)
        to = put_row(to, &rows[r], classes[r], &matrix[WORDS * r]);
    return to - text;
}
