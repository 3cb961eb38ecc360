/* What `rvsuite demo COUNT` does, as a plain C program may: it writes the program's words into
   memory, runs them, counts the 39 points and prints the same report. It is what the time of
   `rvsuite demo` is held against. It makes no line of a log.

   cc -O2 -o demo demo.c && ./demo COUNT */
#include <stdint.h>
#include <stdio.h>
#include <stdlib.h>

enum { ADD, SUB, XOR, OR, AND, SLT, SLTU, MUL, ADDI, LUI, SW, OTHER };

static const char *const names[8] = {"add", "sub", "xor", "or", "and", "slt", "sltu", "mul"};
static const uint32_t bits[8] = {0x33,   0x40000033, 0x4033, 0x6033,
                                 0x7033, 0x2033,     0x3033, 0x2000033};
static const char *const equations[3] = {"rs1 == rs2", "rs1 != rs2", "rs1 == rd"};
static const char *const comparisons[3] = {"rs1_val > 0", "rs1_val < 0", "rs1_val == 0"};

/* A field that the instruction doesn't have is 32. */
struct insn {
    uint8_t op, rd, rs1, rs2;
    int32_t imm;
};

static struct {
    uint64_t ops[8], rs1[8], rs2[8], rd[8], equations[3], comparisons[3], cross;
} hits;

static uint32_t regs[32];

static uint32_t *generated(uint32_t count, size_t *words)
{
    uint32_t *text = malloc(4 * ((size_t)count + 11)), *next = text;
    uint64_t seed = count;
    if (!text)
        exit(2);
    for (uint32_t j = 8; j < 16; j++)
        *next++ = j << 20 | j << 7 | 0x13;
    for (uint32_t i = 0; i < count; i++) {
        seed = (seed * 1103515245 + 12345) % 0x80000000;
        uint32_t t = seed / 256;
        *next++ = bits[t % 8] | (8 + t / 8 % 8) << 7 | (8 + t / 64 % 8) << 15
            | (8 + t / 512 % 8) << 20;
    }
    *next++ = 0x810002b7;
    *next++ = 0x00100313;
    *next++ = 0x0062a023;
    *words = next - text;
    return text;
}

static struct insn decoded(uint32_t word)
{
    struct insn insn = {OTHER, word >> 7 & 31, word >> 15 & 31, word >> 20 & 31, 0};
    switch (word & 127) {
    case 0x33:
        for (int op = 0; op < 8; op++)
            if ((word & 0xfe00707f) == bits[op])
                insn.op = op;
        break;
    case 0x13:
        insn.op = ADDI;
        insn.rs2 = 32;
        insn.imm = (int32_t)word >> 20;
        break;
    case 0x37:
        insn.op = LUI;
        insn.rs1 = insn.rs2 = 32;
        insn.imm = word & 0xfffff000;
        break;
    case 0x23:
        insn.op = SW;
        insn.rd = 32;
        insn.imm = ((int32_t)word >> 25) * 32 + (word >> 7 & 31);
        break;
    }
    return insn;
}

/* Whether the run goes on: the one store of the program halts it. */
static int step(const struct insn *insn)
{
    uint32_t a = insn->rs1 < 32 ? regs[insn->rs1] : 0, b = insn->rs2 < 32 ? regs[insn->rs2] : 0, w;
    switch (insn->op) {
    case ADD: w = a + b; break;
    case SUB: w = a - b; break;
    case XOR: w = a ^ b; break;
    case OR: w = a | b; break;
    case AND: w = a & b; break;
    case SLT: w = (int32_t)a < (int32_t)b; break;
    case SLTU: w = a < b; break;
    case MUL: w = a * b; break;
    case ADDI: w = a + insn->imm; break;
    case LUI: w = insn->imm; break;
    default: return 0;
    }
    if (insn->rd)
        regs[insn->rd] = w;
    return 1;
}

static void count(const struct insn *insn, uint32_t v1)
{
    int64_t value = insn->op == SLTU ? (int64_t)v1 : (int32_t)v1;
    if (insn->op > MUL)
        return;
    hits.ops[insn->op]++;
    hits.rs1[insn->rs1 - 8]++;
    hits.rs2[insn->rs2 - 8]++;
    hits.rd[insn->rd - 8]++;
    hits.equations[0] += insn->rs1 == insn->rs2;
    hits.equations[1] += insn->rs1 != insn->rs2;
    hits.equations[2] += insn->rs1 == insn->rd;
    hits.comparisons[0] += value > 0;
    hits.comparisons[1] += value < 0;
    hits.comparisons[2] += value == 0;
}

static int hit, points;

static void tell(uint64_t number)
{
    hit += number > 0;
    points++;
}

static void print(const char *kind, const char *key, uint64_t number)
{
    printf("%llu %s %s\n", (unsigned long long)number, kind, key);
}

static void print_registers(const char *kind, const uint64_t *numbers)
{
    for (int i = 0; i < 8; i++) {
        char key[4];
        snprintf(key, sizeof key, "x%d", 8 + i);
        print(kind, key, numbers[i]);
    }
}

static void report(unsigned long number, size_t instructions)
{
    for (size_t i = 0; i < sizeof hits / sizeof(uint64_t); i++)
        tell(((const uint64_t *)&hits)[i]);
    printf("demo %lu\ninstructions %zu\nlabel demo hit %d of %d\n", number, instructions, hit,
           points);
    for (int i = 0; i < 8; i++)
        print("mnemonics", names[i], hits.ops[i]);
    print_registers("rs1", hits.rs1);
    print_registers("rs2", hits.rs2);
    print_registers("rd", hits.rd);
    for (int i = 0; i < 3; i++)
        print("op_comb", equations[i], hits.equations[i]);
    for (int i = 0; i < 3; i++)
        print("val_comb", comparisons[i], hits.comparisons[i]);
    print("cross_comb", "[? : ?] :: [a=rd : ?] :: [? : rs1 == a or rs2 == a]", hits.cross);
    printf("total hit %d of %d\n", hit, points);
}

int main(int argc, char **argv)
{
    unsigned long number = argc == 2 ? strtoul(argv[1], 0, 10) : 0;
    size_t words, at = 0;
    struct insn before = {OTHER, 32, 32, 32, 0};
    if (number < 1 || number > 1000000)
        return 2;
    const uint32_t *text = generated(number, &words);
    for (int runs = 1; runs && at < words; at++) {
        struct insn insn = decoded(text[at]);
        uint32_t v1 = insn.rs1 < 32 ? regs[insn.rs1] : 0;
        runs = step(&insn);
        count(&insn, v1);
        hits.cross +=
            at >= 2 && before.rd < 32 && (insn.rs1 == before.rd || insn.rs2 == before.rd);
        before = insn;
    }
    report(number, at);
    return 0;
}
