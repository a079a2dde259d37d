/* The inputs of the bench. Types are put together from chains of n-channel transistors and their duals, so that each is complementary. */
#include "inputs.h"

static uint8_t file[INPUT_MOST_BYTES];
static size_t length;
static uint64_t random_state;

/* A number below n, by xorshift. */
static unsigned below(unsigned n)
{
    random_state ^= random_state << 13;
    random_state ^= random_state >> 7;
    random_state ^= random_state << 17;
    return (random_state >> 32) % n;
}

static void put_byte(unsigned byte)
{
    file[length++] = byte;
}

/* The head of a field; its body follows. */
static void head(unsigned tag, unsigned count)
{
    put_byte(tag);
    put_byte(count / 256);
    put_byte(count % 256);
}

static void begin(unsigned inputs)
{
    length = 0;
    random_state = 1989;
    head(1, 2);
    put_byte(0);
    put_byte(inputs);
}

static void edge(unsigned first, unsigned second, unsigned label)
{
    head(3, 3);
    put_byte(first);
    put_byte(second);
    put_byte(label);
}

/* A gate: `groups` groups of `size` labels each. The n side has `copies` chains for each group, each of `chain` transistors that go through the group's labels in turn; the p side
   has the groups in series, each of them parallel, with repeats until the type has `edges` edges. */
struct gate {
    unsigned groups, size, chain, copies, edges;
};

static unsigned output_of(struct gate g)
{
    return g.groups + 1;
}

static unsigned highest_of(struct gate g)
{
    return output_of(g) + g.copies * g.groups * (g.chain - 1);
}

static unsigned labels_of(struct gate g)
{
    return g.groups * g.size;
}

/* The n side of a gate; answers the number of edges. */
static unsigned put_chains(struct gate g)
{
    unsigned node = output_of(g), edges = 0;
    for (unsigned c = 0; c < g.copies * g.groups; c++) {
        unsigned from = output_of(g);
        for (unsigned i = 0; i < g.chain; i++, edges++) {
            unsigned to = i + 1 < g.chain ? ++node : 0;
            edge(from, to, c % g.groups * g.size + i % g.size);
            from = to;
        }
    }
    return edges;
}

static void put_gate(struct gate g)
{
    unsigned k = labels_of(g);
    head(2, 3);
    put_byte(highest_of(g));
    put_byte(output_of(g));
    put_byte(k);
    unsigned edges = put_chains(g);
    for (unsigned i = 0; i < k || edges < g.edges; i++, edges++)
        edge(i % k / g.size + 1, i % k / g.size + 2, i % k);
}

/* A list of bridges that suits a gate. One bridge in three is of kind 1. */
static void put_list(unsigned list, unsigned count, struct gate g)
{
    unsigned h = highest_of(g);
    for (unsigned i = 0; i < count; i++) {
        unsigned kind = below(3) == 0, first = below(h + 1);
        head(4, 4);
        put_byte(list);
        put_byte(kind);
        put_byte(first);
        put_byte(kind ? below(labels_of(g)) : (first + 1 + below(h)) % (h + 1));
    }
}

/* A list whose bridges join each rail to each label, to the output and to the other rail in turn: wires that instances share. */
static void put_rail_list(unsigned list, unsigned count, struct gate g)
{
    unsigned k = labels_of(g);
    for (unsigned i = 0; i < count; i++) {
        unsigned rail = i % 2, other = i / 2 % (k + 2);
        head(4, 4);
        put_byte(list);
        put_byte(other < k);
        put_byte(rail);
        put_byte(other < k ? other : other == k ? output_of(g) : 1 - rail);
    }
}

/* An instance. Half of the references are to earlier instances, if it may have such. */
static void put_instance(unsigned type, unsigned choice, unsigned labels, unsigned inputs, unsigned earlier)
{
    head(5, 2 + 2 * labels);
    put_byte(type);
    put_byte(choice);
    for (unsigned l = 0; l < labels; l++) {
        unsigned is_earlier = earlier && below(2);
        unsigned reference = is_earlier ? 65536 - 1 - below(earlier) : 1 + below(inputs);
        put_byte(reference / 256);
        put_byte(reference % 256);
    }
}

/* Vectors with an X in 16 letters and, of the rest, a 0 in `zeros`. */
static void put_vectors(unsigned count, unsigned inputs, unsigned zeros)
{
    for (unsigned v = 0; v < count; v++) {
        head(6, inputs);
        for (unsigned i = 0; i < inputs; i++)
            put_byte(below(16) == 0 ? 'X' : below(zeros) == 0 ? '0' : '1');
    }
}

static const struct gate inverter = {1, 1, 1, 1, 0}, nand = {1, 2, 2, 1, 0}, wide = {3, 4, 4, 3, 64}, crowded = {3, 4, 4, 3, 256}, deep = {1, 12, 30, 1, 0};

static const struct gate gates[] = {{1, 1, 1, 1, 0}, {1, 2, 2, 1, 0}, {2, 1, 1, 1, 0}, {1, 3, 3, 1, 0},
                                    {3, 1, 1, 1, 0}, {2, 2, 2, 1, 0}, {1, 4, 4, 1, 0}, {3, 2, 2, 1, 0}};

/* A circuit over gates, each with one list: instances take the gates in turn. */
static void make_circuit(const struct gate *types, unsigned type_count, unsigned list, unsigned instances, unsigned vectors, unsigned zeros)
{
    begin(64);
    for (unsigned t = 0; t < type_count; t++)
        put_gate(types[t]);
    for (unsigned t = 0; t < type_count; t++)
        put_list(t + 1, list, types[t]);
    for (unsigned i = 0; i < instances; i++)
        put_instance(i % type_count + 1, i % type_count + 1, labels_of(types[i % type_count]), 64, zeros == 2 ? i : 0);
    put_vectors(vectors, 64, zeros);
}

static void make_gates(unsigned instances, unsigned vectors)
{
    make_circuit(gates, 8, 16, instances, vectors, 2);
}

/* Mostly ones, and no reference to another instance: so the chains of 30 are on. */
static void make_deep(void)
{
    make_circuit(&deep, 1, 16, 128, 256, 16);
}

static void make_types(struct gate g)
{
    struct gate types[16];
    for (unsigned t = 0; t < 16; t++)
        types[t] = g;
    make_circuit(types, 16, 16, 16, 64, 2);
}

/* Two exhaustive lists of 880 rows and two user lists of 144. */
static void make_rows(void)
{
    begin(64);
    put_gate(wide);
    put_list(1, 144, wide);
    for (unsigned i = 0; i < 4; i++)
        put_instance(1, i < 2 ? 255 : 1, 12, 64, i);
    put_vectors(256, 64, 2);
}

/* 128 NANDs, each a driver of later ones, with so many bridges each between a rail and a wire that others have too. */
static void make_wires(unsigned list)
{
    begin(64);
    put_gate(nand);
    put_rail_list(1, list, nand);
    for (unsigned i = 0; i < 128; i++)
        put_instance(1, 1, labels_of(nand), 64, i);
    put_vectors(64, 64, 2);
}

/* A full adder of nine NANDs, with every bridge, under all eight vectors and two with an X. */
static void make_lesson(void)
{
    static const int references[9][2] = {{1, 2}, {1, -1}, {2, -1}, {-2, -3}, {-4, 3}, {-4, -5}, {3, -5}, {-6, -7}, {-1, -5}};
    begin(3);
    put_gate(nand);
    for (unsigned i = 0; i < 9; i++) {
        head(5, 6);
        put_byte(1);
        put_byte(255);
        for (unsigned l = 0; l < 2; l++) {
            put_byte(references[i][l] < 0 ? 255 : 0);
            put_byte(references[i][l]);
        }
    }
    for (unsigned v = 0; v < 8; v++) {
        head(6, 3);
        for (unsigned i = 0; i < 3; i++)
            put_byte('0' + (v >> i & 1));
    }
    put_vectors(2, 3, 2);
}

static void make_inverter(void)
{
    begin(1);
    put_gate(inverter);
    head(5, 4);
    put_byte(1);
    put_byte(255);
    put_byte(0);
    put_byte(1);
    for (const char *letter = "01X"; *letter; letter++) {
        head(6, 1);
        put_byte(*letter);
    }
}

struct input make_judged_type(void)
{
    begin(1);
    put_gate(crowded);
    put_byte(4);
    return (struct input){"judged", "one 12-label type of 256 edges, then a broken field", file, length};
}

/* The inputs of growth, four in a family. */
static void make_growth(unsigned family, unsigned step)
{
    if (family == 0)
        make_gates(128, 64 * (step + 1));
    else if (family == 1)
        make_gates(16 << step, 256);
    else if (family == 2)
        make_circuit(&wide, 1, 16 << step, 16, 64, 2);
    else
        make_wires(2 << step);
}

static const struct {
    const char *name, *what;
} names[INPUTS] = {
    {"full", "2,048 faults, 256 vectors, 128 instances of eight gates"},
    {"deep", "the same sizes, series chains of 30 edges"},
    {"types", "sixteen types of 12 labels and 64 edges"},
    {"edges", "the same with 256 edges"},
    {"rows", "2,048 rows in four instances, two of them with the 880 rows of h=31 and k=12"},
    {"lesson", "a full adder of nine NANDs, every bridge, ten vectors"},
    {"inverter", "the scope paper's 42 bytes"},
    {"vectors-64", "full with 64 vectors"},
    {"vectors-128", "128"},
    {"vectors-192", "192"},
    {"vectors-256", "256"},
    {"instances-16", "full with 16 instances"},
    {"instances-32", "32"},
    {"instances-64", "64"},
    {"instances-128", "128"},
    {"rows-256", "256 rows in 16 instances of one 12-label type, 64 vectors"},
    {"rows-512", "512"},
    {"rows-1024", "1,024"},
    {"rows-2048", "2,048"},
    {"wires-256", "256 rows of 128 NANDs that share wires, 64 vectors"},
    {"wires-512", "512"},
    {"wires-1024", "1,024"},
    {"wires-2048", "2,048"},
};

struct input make_input(unsigned number)
{
    switch (number) {
    case 0:
        make_gates(128, 256);
        break;
    case 1:
        make_deep();
        break;
    case 2:
        make_types(wide);
        break;
    case 3:
        make_types(crowded);
        break;
    case 4:
        make_rows();
        break;
    case 5:
        make_lesson();
        break;
    case 6:
        make_inverter();
        break;
    default:
        make_growth((number - INPUTS_ALONE) / 4, (number - INPUTS_ALONE) % 4);
    }
    return (struct input){names[number].name, names[number].what, file, length};
}
