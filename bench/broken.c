/* A core of RV32IMA in software that can be broken in one way at a time. It runs an executable as
   `rvsuite run` writes them ({elf}), and writes its signature. What can be broken stands in
   broken_bugs.h.

   cc -O2 -o broken broken.c
   ./broken BUG ELF SIGNATURE          with bug number BUG; with 0 it is the manual's core
   ./broken list                       a line a bug: number, sort, what the core does wrong
   ./broken all ELF SIGNATURE FOUND    without a bug; and with each in turn, where a line with its
                                       number and SIGNATURE is added to FOUND if it leaves other
                                       words than the reference machine's, which `rvsuite run` has
                                       written by then */
#include <stdint.h>
#include <stdio.h>
#include <stdlib.h>
#include <string.h>
#include <sys/wait.h>
#include <unistd.h>

enum { TEXT = 0x80000000u, DATA = 0x81000000u, TEXT_SIZE = 1 << 24, DATA_SIZE = 1 << 20 };
enum { STEPS = 20000 };

enum op {
    LUI, AUIPC, JAL, JALR, BEQ, BNE, BLT, BGE, BLTU, BGEU, LB, LH, LW, LBU, LHU, SB, SH, SW,
    ADDI, SLTI, SLTIU, XORI, ORI, ANDI, SLLI, SRLI, SRAI,
    ADD, SUB, SLL, SLT, SLTU, XOR, SRL, SRA, OR, AND,
    MUL, MULH, MULHSU, MULHU, DIV, DIVU, REM, REMU,
    LR, SC, SWAP, AADD, AXOR, AAND, AOR, AMIN, AMAX, AMINU, AMAXU, FENCE, NONE
};

struct step {
    enum op op;
    uint32_t pc, word, rd, rs1, rs2, imm; /* where it stands, and its fields */
    uint32_t a, b;                        /* the words of rs1 and rs2 */
    uint32_t addr, size, stored;          /* of its store; of size 0 where it stores nothing */
    uint32_t out, next;                   /* its result, and where it goes on */
    uint32_t before;                      /* what rd held before */
    int writes, taken;
};

static uint8_t text[TEXT_SIZE], data[DATA_SIZE];
static uint32_t regs[32], reserved, tohost, begin_signature, end_signature;
static uint32_t overwritten; /* the word of memory that the last store found there */
static int reserves, halted, bug, listed;
static uint32_t zero, waiting; /* the word of x0, and where to go on behind a jump that waits */
static int waits;
static struct step last, older; /* the step before this one, and the one before that */

static int in(const struct step *s, enum op first, enum op end)
{
    return s->op >= first && s->op <= end;
}

static uint32_t bits(uint32_t word, int high, int low)
{
    return word >> low & (uint32_t)((1ull << (high - low + 1)) - 1);
}

static uint32_t extend(uint32_t word, int size)
{
    return (uint32_t)((int32_t)(word << (32 - size)) >> (32 - size));
}

static uint32_t high_word(uint64_t product)
{
    return (uint32_t)(product >> 32);
}

static int holds(enum op op, uint32_t a, uint32_t b)
{
    switch (op) {
    case BEQ: return a == b;
    case BNE: return a != b;
    case BLT: return (int32_t)a < (int32_t)b;
    case BGE: return (int32_t)a >= (int32_t)b;
    case BLTU: return a < b;
    default: return a >= b;
    }
}

static uint32_t computed(enum op op, uint32_t a, uint32_t b)
{
    int64_t sa = (int32_t)a, sb = (int32_t)b;
    switch (op) {
    case ADD: case ADDI: case AADD: return a + b;
    case SUB: return a - b;
    case SLL: case SLLI: return a << (b & 31);
    case SLT: case SLTI: return sa < sb;
    case SLTU: case SLTIU: return a < b;
    case XOR: case XORI: case AXOR: return a ^ b;
    case SRL: case SRLI: return a >> (b & 31);
    case SRA: case SRAI: return (uint32_t)((int32_t)a >> (b & 31));
    case OR: case ORI: case AOR: return a | b;
    case AND: case ANDI: case AAND: return a & b;
    case MUL: return a * b;
    case MULH: return high_word((uint64_t)(sa * sb));
    case MULHSU: return high_word((uint64_t)(sa * (int64_t)b));
    case MULHU: return high_word((uint64_t)a * b);
    case DIV: return b ? (uint32_t)(sa / sb) : ~0u;
    case DIVU: return b ? a / b : ~0u;
    case REM: return b ? (uint32_t)(sa % sb) : a;
    case REMU: return b ? a % b : a;
    case AMIN: return sa < sb ? a : b;
    case AMAX: return sa > sb ? a : b;
    case AMINU: return a < b ? a : b;
    case AMAXU: return a > b ? a : b;
    default: return b;
    }
}

/* Where bytes of memory are, or null. */
static uint8_t *at(uint32_t addr, uint32_t size)
{
    if (addr - DATA <= DATA_SIZE - size)
        return data + (addr - DATA);
    return addr - TEXT <= TEXT_SIZE - size ? text + (addr - TEXT) : NULL;
}

static uint32_t load(uint32_t addr, uint32_t size)
{
    uint32_t word = 0;
    uint8_t *from = at(addr, size);
    if (from)
        memcpy(&word, from, size);
    return word;
}

/* What a load makes of the bytes that it reads. */
static uint32_t loaded(enum op op, uint32_t word)
{
    switch (op) {
    case LB: return extend(word, 8);
    case LH: return extend(word, 16);
    case LBU: return word & 0xff;
    case LHU: return word & 0xffff;
    default: return word;
    }
}

static uint32_t size_of(enum op op)
{
    return op == LB || op == LBU || op == SB ? 1 : op == LH || op == LHU || op == SH ? 2 : 4;
}

static struct step decoded(uint32_t pc, uint32_t word)
{
    static const enum op branches[] = {BEQ, BNE, NONE, NONE, BLT, BGE, BLTU, BGEU};
    static const enum op loads[] = {LB, LH, LW, NONE, LBU, LHU, NONE, NONE};
    static const enum op stores[] = {SB, SH, SW, NONE, NONE, NONE, NONE, NONE};
    static const enum op immediates[] = {ADDI, SLLI, SLTI, SLTIU, XORI, SRLI, ORI, ANDI};
    static const enum op registers[] = {ADD, SLL, SLT, SLTU, XOR, SRL, OR, AND};
    static const enum op atomic[] = {
        AADD, SWAP, LR, SC, AXOR, NONE, NONE, NONE, AOR, NONE, NONE, NONE, AAND, NONE, NONE, NONE,
        AMIN, NONE, NONE, NONE, AMAX, NONE, NONE, NONE, AMINU, NONE, NONE, NONE, AMAXU, NONE, NONE,
        NONE};
    uint32_t funct3 = bits(word, 14, 12), funct7 = word >> 25;
    struct step s = {.op = NONE, .pc = pc, .word = word, .next = pc + 4};
    s.rd = bits(word, 11, 7), s.rs1 = bits(word, 19, 15), s.rs2 = bits(word, 24, 20);
    s.imm = extend(word >> 20, 12);
    switch (word & 0x7f) {
    case 0x37: s.op = LUI, s.imm = word >> 12; break;
    case 0x17: s.op = AUIPC, s.imm = word >> 12; break;
    case 0x6f:
        s.op = JAL;
        s.imm = extend(bits(word, 31, 31) << 20 | bits(word, 19, 12) << 12
                       | bits(word, 20, 20) << 11 | bits(word, 30, 21) << 1, 21);
        break;
    case 0x67: s.op = JALR; break;
    case 0x63:
        s.op = branches[funct3];
        s.imm = extend(bits(word, 31, 31) << 12 | bits(word, 7, 7) << 11
                       | bits(word, 30, 25) << 5 | bits(word, 11, 8) << 1, 13);
        break;
    case 0x03: s.op = loads[funct3]; break;
    case 0x23: s.op = stores[funct3], s.imm = extend(funct7 << 5 | s.rd, 12); break;
    case 0x13:
        s.op = funct3 == 5 && funct7 == 0x20 ? SRAI : immediates[funct3];
        if (in(&s, SLLI, SRAI))
            s.imm = s.rs2;
        break;
    case 0x33:
        s.op = funct7 == 1 ? MUL + funct3
            : funct7 != 0x20 ? registers[funct3] : funct3 ? SRA : SUB;
        break;
    case 0x0f: s.op = FENCE; break;
    case 0x2f: s.op = atomic[word >> 27]; break;
    }
    s.writes = !in(&s, BEQ, BGEU) && !in(&s, SB, SW) && s.op != FENCE && s.op != NONE;
    return s;
}

#include "broken_bugs.h"

static void read_sources(struct step *s)
{
    s->a = regs[s->rs1], s->b = regs[s->rs2], s->before = regs[s->rd];
}

/* The result, where it goes on, and what it is to store. */
static void execute(struct step *s)
{
    if (s->op == LUI)
        s->out = s->imm << 12;
    else if (s->op == AUIPC)
        s->out = s->pc + (s->imm << 12);
    else if (s->op == JAL || s->op == JALR) {
        s->out = s->pc + 4;
        s->next = s->op == JAL ? s->pc + s->imm : (s->a + s->imm) & ~1u;
        s->taken = 1;
    } else if (in(s, BEQ, BGEU)) {
        s->taken = holds(s->op, s->a, s->b);
        s->next = s->taken ? s->pc + s->imm : s->pc + 4;
    } else if (in(s, LB, SW)) {
        s->addr = s->a + s->imm;
        s->stored = s->b;
    } else if (in(s, ADDI, REMU))
        s->out = computed(s->op, s->a, in(s, ADDI, SRAI) ? s->imm : s->b);
    else if (in(s, LR, AMAXU))
        s->addr = s->a;
    s->size = in(s, SB, SW) ? size_of(s->op) : 0;
}

/* The reading half of loads and atomic instructions. */
static void read_memory(struct step *s)
{
    if (in(s, LB, LHU))
        s->out = loaded(s->op, load(s->addr, size_of(s->op)));
    else if (s->op == SC) {
        int succeeds = reserves && reserved == s->addr;
        s->out = !succeeds, s->size = succeeds ? 4 : 0, s->stored = s->b;
        reserves = 0;
    } else if (in(s, LR, AMAXU)) {
        s->out = load(s->addr, 4);
        if (s->op == LR)
            reserves = 1, reserved = s->addr;
        else
            s->size = 4, s->stored = computed(s->op, s->out, s->b);
    }
}

static void write_memory(const struct step *s)
{
    uint8_t *to = s->size ? at(s->addr, s->size) : NULL;
    if (!to)
        return;
    overwritten = load(s->addr & ~3u, 4);
    memcpy(to, &s->stored, s->size);
    halted = s->op == SW && s->addr == tohost && s->stored == 1;
}

static void write_register(const struct step *s)
{
    if (s->writes)
        regs[s->rd] = s->out;
}

static struct step stepped(uint32_t pc)
{
    struct step s = decoded(pc, load(pc, 4));
    break_fields(&s);
    read_sources(&s);
    break_unseen(&s);
    break_sources(&s);
    break_hazards(&s);
    execute(&s);
    break_results(&s);
    break_products(&s);
    break_jumps(&s);
    break_addresses(&s);
    read_memory(&s);
    break_loads(&s);
    break_atomics(&s);
    write_memory(&s);
    write_register(&s);
    break_after(&s);
    regs[0] = zero;
    older = last, last = s;
    return s;
}

static int run(void)
{
    uint32_t pc = TEXT;
    for (int i = 0; i < STEPS && !halted; i++) {
        if (!at(pc, 4) || pc % 4)
            return 1;
        struct step s = stepped(pc);
        if (s.op == NONE)
            return 1;
        pc = waits && !--waits ? waiting : s.next;
    }
    return !halted;
}

/* Executables. */
static uint8_t *file;
static size_t file_size;

static uint32_t field(size_t place, size_t size)
{
    uint32_t value = 0;
    if (place + size > file_size)
        exit(3);
    memcpy(&value, file + place, size);
    return value;
}

static void place_segments(void)
{
    uint32_t header = field(28, 4);
    for (uint32_t i = 0; i < field(44, 2); i++, header += 32) {
        uint32_t from = field(header + 4, 4), size = field(header + 16, 4);
        uint8_t *to = at(field(header + 8, 4), size);
        if (!to || from + (size_t)size > file_size)
            exit(3);
        memcpy(to, file + from, size);
    }
}

static void find_symbols(void)
{
    uint32_t first = field(32, 4);
    for (uint32_t i = 0; i < field(48, 2); i++) {
        uint32_t section = first + 40 * i;
        if (field(section + 4, 4) != 2)
            continue;
        uint32_t names = field(first + 40 * field(section + 24, 4) + 16, 4);
        uint32_t from = field(section + 16, 4), size = field(section + 20, 4);
        for (uint32_t symbol = from; symbol < from + size; symbol += 16) {
            const char *name = (const char *)file + names + field(symbol, 4);
            uint32_t value = field(symbol + 4, 4);
            if (!strcmp(name, "tohost"))
                tohost = value;
            if (!strcmp(name, "begin_signature"))
                begin_signature = value;
            if (!strcmp(name, "end_signature"))
                end_signature = value;
        }
    }
}

static void read_executable(const char *name)
{
    FILE *from = fopen(name, "rb");
    file = malloc(1 << 26);
    if (!from || !file)
        exit(3);
    file_size = fread(file, 1, 1 << 26, from);
    fclose(from);
    place_segments();
    find_symbols();
}

static void write_signature(const char *name)
{
    FILE *to = fopen(name, "w");
    if (!to)
        exit(3);
    for (uint32_t addr = begin_signature; addr < end_signature; addr += 4)
        fprintf(to, "%08x\n", load(addr, 4));
    fclose(to);
}

/* The words of LABEL.reference.sig, beside LABEL.device.sig. */
static uint32_t *reference_words(const char *signature, size_t *count)
{
    static uint32_t words[DATA_SIZE / 4];
    char name[4096];
    const char *end = strstr(signature, ".device.sig");
    if (!end || end - signature > 4000)
        exit(3);
    snprintf(name, sizeof name, "%.*s.reference.sig", (int)(end - signature), signature);
    FILE *from = fopen(name, "r");
    if (!from)
        exit(3);
    for (*count = 0; *count < DATA_SIZE / 4 && fscanf(from, "%8x", words + *count) == 1; ++*count)
        ;
    fclose(from);
    return words;
}

/* Whether the run with the bug ends otherwise than with these words. */
static int differs(const uint32_t *words, size_t count)
{
    if (run() || end_signature - begin_signature != 4 * count)
        return 1;
    for (size_t i = 0; i < count; i++)
        if (load(begin_signature + 4 * (uint32_t)i, 4) != words[i])
            return 1;
    return 0;
}

/* Each bug has a process, and so a memory of its own. */
static void try_all(const char *signature, const char *found)
{
    size_t count;
    const uint32_t *words = reference_words(signature, &count);
    FILE *to = fopen(found, "a");
    if (!to)
        exit(3);
    for (bug = 1; bug <= BUGS; bug++) {
        pid_t child = fork();
        int status = 0;
        if (child < 0)
            exit(3);
        if (!child)
            _exit(differs(words, count));
        if (waitpid(child, &status, 0) != child || !WIFEXITED(status))
            exit(3);
        if (WEXITSTATUS(status))
            fprintf(to, "%d %s\n", bug, signature);
    }
    fclose(to);
    bug = 0;
}

static void list(void)
{
    struct step none = {.op = NONE};
    listed = 1;
    break_fields(&none), break_sources(&none), break_hazards(&none), break_results(&none);
    break_products(&none), break_jumps(&none), break_addresses(&none), break_loads(&none);
    break_atomics(&none), break_after(&none), break_unseen(&none);
}

int main(int count, char **words)
{
    if (count == 2 && !strcmp(words[1], "list")) {
        list();
        return 0;
    }
    if (count != 4 && count != 5)
        return 2;
    read_executable(words[2]);
    if (count == 5)
        try_all(words[3], words[4]);
    else
        bug = atoi(words[1]);
    if (run())
        return 1;
    write_signature(words[3]);
    return 0;
}
