/* What can be broken in broken.c. A line BUG(sort, text, when, what) is a bug: where `when` holds
   of the step s, `what` is done to it. The functions are the stages through which a step goes. The
   last one has what no test can show. */
#define BUG(sort, text, when, what)                                                                \
    do {                                                                                           \
        enum { number = __COUNTER__ + 1 };                                                         \
        if (listed)                                                                                \
            printf("%d %s %s\n", number, #sort, text);                                             \
        else if (bug == number && (when)) {                                                        \
            what;                                                                                  \
        }                                                                                          \
    } while (0)

/* Sorts of instructions. */
#define IS(name) (s->op == name)
#define BRANCH in(s, BEQ, BGEU)
#define LOAD in(s, LB, LHU)
#define STORE in(s, SB, SW)
#define SHIFTS (in(s, SLLI, SRAI) || IS(SLL) || IS(SRL) || IS(SRA))
#define REGISTERS in(s, ADD, REMU)
#define MODIFIES in(s, SWAP, AMAXU)
#define READS1 (!IS(LUI) && !IS(AUIPC) && !IS(JAL) && !IS(FENCE))
#define READS2 (BRANCH || STORE || REGISTERS || in(s, SC, AMAXU))
#define SIGN(word) ((word) >> 31)

/* Whether a word is less than another, both read signed. */
#define LESS(a, b) ((int32_t)(a) < (int32_t)(b))

/* A sum without the carry into bit `cut`, and a difference without the borrow from it. */
static uint32_t cut_sum(uint32_t a, uint32_t b, int cut)
{
    uint32_t low = (1u << cut) - 1;
    return ((a & ~low) + (b & ~low)) | ((a + b) & low);
}

static uint32_t cut_difference(uint32_t a, uint32_t b, int cut)
{
    uint32_t low = (1u << cut) - 1;
    return ((a & ~low) - (b & ~low)) | ((a - b) & low);
}

static void break_fields(struct step *s)
{
    uint32_t word = s->word;
    BUG(registers, "the top bit of rs1 is dropped", 1, s->rs1 &= 15);
    BUG(registers, "the top bit of rs2 is dropped", READS2, s->rs2 &= 15);
    BUG(registers, "the top bit of rd is dropped", 1, s->rd &= 15);
    BUG(registers, "the top bit of all three fields is dropped", 1,
        (s->rd &= 15, s->rs1 &= 15, s->rs2 &= 15));
    BUG(registers, "bit 2 of rs2 is dropped", READS2, s->rs2 &= 27);
    BUG(registers, "bit 3 of rs1 is dropped", READS1, s->rs1 &= 23);
    BUG(registers, "a branch drops the top bit of rs2", BRANCH, s->rs2 &= 15);
    BUG(registers, "a store drops the top bit of rs2", STORE, s->rs2 &= 15);
    BUG(registers, "a load drops the top bit of rd", LOAD, s->rd &= 15);
    BUG(registers, "a shift by a constant drops the top bit of rs1", in(s, SLLI, SRAI),
        s->rs1 &= 15);
    BUG(registers, "jal drops the top bit of rd", IS(JAL), s->rd &= 15);
    BUG(registers, "jalr drops the top bit of rs1", IS(JALR), s->rs1 &= 15);
    BUG(registers, "auipc drops the top bit of rd", IS(AUIPC), s->rd &= 15);
    BUG(registers, "an amo drops the top bit of rs2", MODIFIES, s->rs2 &= 15);
    BUG(registers, "lr.w drops the top bit of rd", IS(LR), s->rd &= 15);
    BUG(registers, "div drops the top bit of rd", IS(DIV), s->rd &= 15);
    BUG(registers, "sub swaps rs1 and rs2 where both are above x7",
        IS(SUB) && s->rs1 > 7 && s->rs2 > 7,
        (s->rs1 = bits(word, 24, 20), s->rs2 = bits(word, 19, 15)));
    BUG(registers, "x30 and x31 are one register", 1,
        (s->rd = s->rd == 31 ? 30 : s->rd, s->rs1 = s->rs1 == 31 ? 30 : s->rs1,
         s->rs2 = s->rs2 == 31 ? 30 : s->rs2));
    BUG(registers, "x5 and x13 are one register", 1,
        (s->rd = s->rd == 13 ? 5 : s->rd, s->rs1 = s->rs1 == 13 ? 5 : s->rs1,
         s->rs2 = s->rs2 == 13 ? 5 : s->rs2));

    BUG(immediates, "addi doesn't extend its sign", IS(ADDI), s->imm &= 0xfff);
    BUG(immediates, "slti doesn't extend its sign", IS(SLTI), s->imm &= 0xfff);
    BUG(immediates, "sltiu doesn't extend its sign", IS(SLTIU), s->imm &= 0xfff);
    BUG(immediates, "xori doesn't extend its sign", IS(XORI), s->imm &= 0xfff);
    BUG(immediates, "ori doesn't extend its sign", IS(ORI), s->imm &= 0xfff);
    BUG(immediates, "andi doesn't extend its sign", IS(ANDI), s->imm &= 0xfff);
    BUG(immediates, "a load doesn't extend its sign", LOAD, s->imm &= 0xfff);
    BUG(immediates, "a store doesn't extend its sign", STORE, s->imm &= 0xfff);
    BUG(immediates, "jalr doesn't extend its sign", IS(JALR), s->imm &= 0xfff);
    BUG(immediates, "a branch doesn't extend its sign", BRANCH, s->imm &= 0x1fff);
    BUG(immediates, "jal doesn't extend its sign", IS(JAL), s->imm &= 0x1fffff);
    BUG(immediates, "addi drops bit 9", IS(ADDI), s->imm &= ~(1u << 9));
    BUG(immediates, "slti drops bit 6", IS(SLTI), s->imm &= ~(1u << 6));
    BUG(immediates, "sltiu drops bit 10", IS(SLTIU), s->imm &= ~(1u << 10));
    BUG(immediates, "xori drops bit 3", IS(XORI), s->imm &= ~(1u << 3));
    BUG(immediates, "ori drops bit 0", IS(ORI), s->imm &= ~1u);
    BUG(immediates, "andi drops bit 5", IS(ANDI), s->imm &= ~(1u << 5));
    BUG(immediates, "andi sets bit 8", IS(ANDI), s->imm |= 1u << 8);
    BUG(immediates, "a load drops bit 10", LOAD, s->imm &= ~(1u << 10));
    BUG(immediates, "a load drops bit 4", LOAD, s->imm &= ~(1u << 4));
    BUG(immediates, "lhu drops bit 7", IS(LHU), s->imm &= ~(1u << 7));
    BUG(immediates, "a store has the immediate of a load", STORE, s->imm = extend(word >> 20, 12));
    BUG(immediates, "a store drops bit 5", STORE, s->imm &= ~(1u << 5));
    BUG(immediates, "sb drops bit 9", IS(SB), s->imm &= ~(1u << 9));
    BUG(immediates, "jalr drops bit 10", IS(JALR), s->imm &= ~(1u << 10));
    BUG(immediates, "a branch drops bit 11", BRANCH, s->imm &= ~(1u << 11));
    BUG(immediates, "a branch reads its sign as bit 11 too", BRANCH && SIGN(word),
        s->imm |= 1u << 11);
    BUG(immediates, "a branch drops bit 10", BRANCH, s->imm &= ~(1u << 10));
    BUG(immediates, "bgeu drops bit 5", IS(BGEU), s->imm &= ~(1u << 5));
    BUG(immediates, "jal drops bits 12 to 19", IS(JAL), s->imm &= ~0xff000u);
    BUG(immediates, "jal drops bit 11", IS(JAL), s->imm &= ~(1u << 11));
    BUG(immediates, "jal drops bit 19", IS(JAL), s->imm &= ~(1u << 19));
    BUG(immediates, "jal drops bit 4", IS(JAL), s->imm &= ~(1u << 4));
    BUG(immediates, "lui drops the top bit", IS(LUI), s->imm &= 0x7ffff);
    BUG(immediates, "lui drops bit 13 of its field", IS(LUI), s->imm &= ~(1u << 13));
    BUG(immediates, "auipc drops the top bit", IS(AUIPC), s->imm &= 0x7ffff);
    BUG(immediates, "auipc drops bit 6 of its field", IS(AUIPC), s->imm &= ~(1u << 6));
    BUG(immediates, "slli drops bit 4 of its amount", IS(SLLI), s->imm &= 15);
    BUG(immediates, "srli drops bit 3 of its amount", IS(SRLI), s->imm &= 23);
    BUG(immediates, "srai drops bit 0 of its amount", IS(SRAI), s->imm &= 30);
}

static void break_sources(struct step *s)
{
    BUG(registers, "where rs1 and rs2 are one register rs2 reads 0", READS2 && s->rs1 == s->rs2,
        s->b = 0);
    BUG(registers, "where rs2 and rd are one register rs2 reads 0", REGISTERS && s->rs2 == s->rd,
        s->b = 0);
    BUG(registers, "bit 5 of x17 is stuck at 0", s->rs1 == 17, s->a &= ~32u);
    BUG(registers, "bit 30 of x9 is stuck at 1", s->rs2 == 9 && READS2, s->b |= 1u << 30);
    BUG(registers, "a store of x0 stores the word of rs1", STORE && s->rs2 == 0, s->b = s->a);
    BUG(registers, "a branch reads rs2 x0 as 1", BRANCH && s->rs2 == 0, s->b = 1);
    BUG(registers, "sub with rs1 x0 gives rs2", IS(SUB) && s->rs1 == 0, (s->a = s->b, s->b = 0));
    BUG(registers, "an amo with rs2 x0 takes rs1", MODIFIES && s->rs2 == 0, s->b = s->a);
}

/* How a step reads what a step before it made. */
static int next_reads1(const struct step *s)
{
    return last.writes && last.rd && READS1 && s->rs1 == last.rd;
}

static int next_reads2(const struct step *s)
{
    return last.writes && last.rd && READS2 && s->rs2 == last.rd;
}

static int after_reads1(const struct step *s)
{
    return older.writes && older.rd && READS1 && s->rs1 == older.rd && !next_reads1(s);
}

static int after_reads2(const struct step *s)
{
    return older.writes && older.rd && READS2 && s->rs2 == older.rd && !next_reads2(s);
}

/* The sources are what they were before the step before. */
static void stale(struct step *s)
{
    if (next_reads1(s))
        s->a = last.before;
    if (next_reads2(s))
        s->b = last.before;
}

static void break_hazards(struct step *s)
{
    int both = next_reads1(s) && next_reads2(s), computes = in(&last, ADD, REMU);
    int twice = last.writes && older.writes && last.rd && last.rd == older.rd;
    BUG(hazards, "rs1 of an add misses the result before it", next_reads1(s) && IS(ADD),
        s->a = last.before);
    BUG(hazards, "rs2 of a sub misses the result before it", next_reads2(s) && IS(SUB),
        s->b = last.before);
    BUG(hazards, "rs2 misses the result before it where rs1 takes it", both, s->b = last.before);
    BUG(hazards, "rs1 misses the result of the one before", after_reads1(s) && in(&older, ADD, AND),
        s->a = older.before);
    BUG(hazards, "rs2 misses the result of the one before", after_reads2(s) && in(&older, ADD, AND),
        s->b = older.before);
    BUG(hazards, "of two results for rs1 the older is taken", twice && next_reads1(s) && computes,
        s->a = older.out);
    BUG(hazards, "of two results for rs2 the older is taken", twice && next_reads2(s) && computes,
        s->b = older.out);
    BUG(hazards, "a shift's result is missed by the next",
        in(&last, SLLI, SRAI) || last.op == SLL || last.op == SRL || last.op == SRA, stale(s));
    BUG(hazards, "a result of slt is missed by the next", last.op == SLT, stale(s));
    BUG(hazards, "a product is missed by the next", in(&last, MUL, MULHU), stale(s));
    BUG(hazards, "a high product is missed by a mul", last.op == MULH && IS(MUL), stale(s));
    BUG(hazards, "a quotient is missed by the next", in(&last, DIV, REMU), stale(s));
    BUG(hazards, "a quotient is missed by the one after",
        after_reads1(s) && in(&older, DIV, DIVU), s->a = older.before);
    BUG(hazards, "a remainder is missed by a division", in(&last, REM, REMU) && in(s, DIV, REMU),
        stale(s));
    BUG(hazards, "a division misses the divisor that is just made", in(s, DIV, REMU)
        && next_reads2(s), s->b = last.before);
    BUG(hazards, "a branch misses the result before it", BRANCH && in(&last, ADDI, REMU), stale(s));
    BUG(hazards, "a branch misses the result of the one before",
        BRANCH && after_reads2(s) && in(&older, ADD, AND), s->b = older.before);
    BUG(hazards, "a branch misses the load before it", BRANCH && in(&last, LB, LHU), stale(s));
    BUG(hazards, "rs1 misses the load before it", in(&last, LB, LHU) && next_reads1(s),
        s->a = last.before);
    BUG(hazards, "rs2 misses the load before it", in(&last, LB, LHU) && next_reads2(s) && !STORE,
        s->b = last.before);
    BUG(hazards, "a store misses the data that is just loaded",
        in(&last, LB, LHU) && STORE && next_reads2(s), s->b = last.before);
    BUG(hazards, "a load misses the address that is just loaded",
        in(&last, LB, LHU) && LOAD && next_reads1(s), s->a = last.before);
    BUG(hazards, "a store misses the data that is just made",
        STORE && next_reads2(s) && in(&last, ADD, AND), s->b = last.before);
    BUG(hazards, "a load misses the address that is just made",
        LOAD && next_reads1(s) && in(&last, ADD, AND), s->a = last.before);
    BUG(hazards, "jalr misses the target that is just made",
        IS(JALR) && next_reads1(s) && in(&last, ADD, AND), s->a = last.before);
    BUG(hazards, "jalr misses the target that is just loaded",
        IS(JALR) && next_reads1(s) && in(&last, LB, LHU), s->a = last.before);
    BUG(hazards, "a link is missed by the next", last.op == JAL || last.op == JALR, stale(s));
    BUG(hazards, "the result of auipc is missed by the next", last.op == AUIPC, stale(s));
    BUG(hazards, "the word of an amo is missed by the next", in(&last, SWAP, AMAXU), stale(s));
    BUG(hazards, "whether sc.w stored is missed by the next", last.op == SC, stale(s));
    BUG(hazards, "the word of lr.w is missed by an amo or sc.w",
        last.op == LR && in(s, SC, AMAXU), stale(s));
    BUG(hazards, "what is written to x0 is read by rs1 of the next",
        last.writes && !last.rd && READS1 && !s->rs1, s->a = last.out);
    BUG(hazards, "what is written to x0 is read by rs2 of the next",
        last.writes && !last.rd && READS2 && !s->rs2, s->b = last.out);
    BUG(hazards, "a load to x0 is read by the next",
        in(&last, LB, LHU) && !last.rd && READS1 && !s->rs1, s->a = last.out);
    BUG(hazards, "a result is missed behind a fence",
        last.op == FENCE && older.writes && older.rd && READS1 && s->rs1 == older.rd,
        s->a = older.before);
    BUG(hazards, "a result is missed behind a branch",
        in(&last, BEQ, BGEU) && after_reads1(s), s->a = older.before);
}

static void break_results(struct step *s)
{
    uint32_t a = s->a, b = s->b, imm = s->imm;
    BUG(results, "add loses the carry into bit 8", IS(ADD), s->out = cut_sum(a, b, 8));
    BUG(results, "add loses the carry into bit 16", IS(ADD), s->out = cut_sum(a, b, 16));
    BUG(results, "add loses the carry into bit 31", IS(ADD), s->out = cut_sum(a, b, 31));
    BUG(results, "addi loses the carry into bit 12", IS(ADDI), s->out = cut_sum(a, imm, 12));
    BUG(results, "addi loses the carry into bit 21", IS(ADDI), s->out = cut_sum(a, imm, 21));
    BUG(results, "sub loses the borrow from bit 16", IS(SUB), s->out = cut_difference(a, b, 16));
    BUG(results, "sub loses the borrow from bit 27", IS(SUB), s->out = cut_difference(a, b, 27));
    BUG(results, "sub takes rs1 from rs2", IS(SUB), s->out = b - a);
    BUG(results, "sub adds the complement without 1", IS(SUB), s->out = a + ~b);
    BUG(results, "add saturates", IS(ADD) && !SIGN(a) && !SIGN(b) && SIGN(a + b),
        s->out = 0x7fffffff);
    BUG(results, "sub saturates", IS(SUB) && SIGN(a) && !SIGN(b) && !SIGN(a - b),
        s->out = 0x80000000);
    BUG(results, "addi by 0 writes nothing", IS(ADDI) && !imm, s->writes = 0);
    BUG(results, "slt compares unsigned", IS(SLT), s->out = a < b);
    BUG(results, "slt goes by the sign of the difference", IS(SLT), s->out = SIGN(a - b));
    BUG(results, "slt of equal words gives 1", IS(SLT) && a == b, s->out = 1);
    BUG(results, "sltu compares signed", IS(SLTU), s->out = LESS(a, b));
    BUG(results, "sltu of equal words gives 1", IS(SLTU) && a == b, s->out = 1);
    BUG(results, "sltu compares the upper halves alone", IS(SLTU), s->out = a >> 16 < b >> 16);
    BUG(results, "sltu leaves bit 0 out", IS(SLTU), s->out = a >> 1 < b >> 1);
    BUG(results, "slt leaves bit 11 out", IS(SLT), s->out = LESS(a & ~0x800u, b & ~0x800u));
    BUG(results, "slti compares unsigned", IS(SLTI), s->out = a < imm);
    BUG(results, "slti goes by the sign of the difference", IS(SLTI), s->out = SIGN(a - imm));
    BUG(results, "sltiu compares signed", IS(SLTIU), s->out = LESS(a, imm));
    BUG(results, "sltiu by 1 isn't read as a test for 0", IS(SLTIU) && imm == 1, s->out = a != 0);
    BUG(results, "xor is or", IS(XOR), s->out = a | b);
    BUG(results, "xor loses bit 29", IS(XOR), s->out &= ~(1u << 29));
    BUG(results, "or is xor", IS(OR), s->out = a ^ b);
    BUG(results, "or loses bit 14 of rs2", IS(OR), s->out = a | (b & ~(1u << 14)));
    BUG(results, "and is the complement's and", IS(AND), s->out = a & ~b);
    BUG(results, "and loses bit 23", IS(AND), s->out &= ~(1u << 23));
    BUG(results, "and takes bit 7 of rs1 alone", IS(AND), s->out |= a & 128);
    BUG(results, "ori is xori", IS(ORI), s->out = a ^ imm);
    BUG(results, "xori by -1 gives its operand", IS(XORI) && imm == ~0u, s->out = a);
    BUG(results, "andi takes bit 18 of rs1 alone", IS(ANDI), s->out |= a & 1u << 18);
    BUG(results, "ori loses bit 26", IS(ORI), s->out &= ~(1u << 26));
    BUG(results, "sll takes six bits of its amount", IS(SLL) && b & 32, s->out = 0);
    BUG(results, "srl takes six bits of its amount", IS(SRL) && b & 32, s->out = 0);
    BUG(results, "sra takes all of its amount", IS(SRA) && b > 31, s->out = -SIGN(a));
    BUG(results, "sll by 32 and more gives 0", IS(SLL) && b > 31, s->out = 0);
    BUG(results, "srl by 2^31 and more gives 0", IS(SRL) && SIGN(b), s->out = 0);
    BUG(results, "srli by 16 and more gives 0", IS(SRLI) && imm > 15, s->out = 0);
    BUG(results, "srai fills 16 bits of sign", IS(SRAI) && imm > 16,
        s->out &= 0xffffu | computed(SRL, a, imm));
    BUG(results, "sll by 31 gives 0", IS(SLL) && (b & 31) == 31, s->out = 0);
    BUG(results, "slli by 0 gives 0", IS(SLLI) && !imm, s->out = 0);
    BUG(results, "sra by 0 gives its sign", IS(SRA) && !(b & 31), s->out = -SIGN(a));
    BUG(results, "srl is sra", IS(SRL), s->out = computed(SRA, a, b));
    BUG(results, "sra is srl", IS(SRA), s->out = computed(SRL, a, b));
    BUG(results, "srli is srai", IS(SRLI), s->out = computed(SRA, a, imm));
    BUG(results, "srai is srli", IS(SRAI), s->out = computed(SRL, a, imm));
    BUG(results, "srai rounds towards 0", IS(SRAI) && SIGN(a) && a & ((1u << imm) - 1), s->out++);
    BUG(results, "the third stage of sll moves by 5", IS(SLL) && b & 4, s->out <<= 1);
    BUG(results, "the fourth stage of srl loses bit 17", IS(SRL) && b & 8, s->out &= ~(1u << 17));
    BUG(results, "sll rotates", IS(SLL) && b & 31, s->out |= a >> (32 - (b & 31)));
    BUG(results, "auipc adds to the next pc", IS(AUIPC), s->out += 4);
    BUG(results, "auipc is lui", IS(AUIPC), s->out = imm << 12);
    BUG(results, "lui keeps the low bits of rd", IS(LUI), s->out |= s->before & 0xfff);
}

static uint64_t magnitude(uint32_t word)
{
    return SIGN(word) ? -(uint64_t)(int64_t)(int32_t)word : word;
}

/* The high word of an unsigned product in which the middle sum has 32 bits. */
static uint32_t short_product(uint32_t a, uint32_t b)
{
    uint32_t low = (a & 0xffff) * (b & 0xffff), first = (a >> 16) * (b & 0xffff);
    uint32_t middle = first + (a & 0xffff) * (b >> 16) + (low >> 16);
    return (a >> 16) * (b >> 16) + (middle >> 16);
}

static void break_products(struct step *s)
{
    uint32_t a = s->a, b = s->b;
    int64_t sa = (int32_t)a, sb = (int32_t)b;
    int exact = b && sb != -1 && sa % sb == 0;
    BUG(products, "mul takes 16 bits of rs2", IS(MUL), s->out = a * (b & 0xffff));
    BUG(products, "mul takes 16 bits of rs1", IS(MUL), s->out = (a & 0xffff) * b);
    BUG(products, "mul loses the product of an upper and a lower half", IS(MUL),
        s->out = (a & 0xffff) * b + ((a >> 16) * (b & 0xff) << 16));
    BUG(products, "mul keeps 31 bits", IS(MUL), s->out &= 0x7fffffff);
    BUG(products, "mulh is mulhu", IS(MULH), s->out = computed(MULHU, a, b));
    BUG(products, "mulh is mulhsu", IS(MULH), s->out = computed(MULHSU, a, b));
    BUG(products, "mulh of -2^31 by itself is negative", IS(MULH) && a == b && a == 0x80000000,
        s->out = 0xc0000000);
    BUG(products, "mulh is the complement of the magnitudes' high word", IS(MULH)
        && SIGN(a) != SIGN(b), s->out = -high_word(magnitude(a) * magnitude(b)));
    BUG(products, "mulhsu is mulh", IS(MULHSU), s->out = computed(MULH, a, b));
    BUG(products, "mulhsu is mulhu", IS(MULHSU), s->out = computed(MULHU, a, b));
    BUG(products, "mulhsu takes rs2 as the signed one", IS(MULHSU),
        s->out = computed(MULHSU, b, a));
    BUG(products, "mulhu is mulh", IS(MULHU), s->out = computed(MULH, a, b));
    BUG(products, "mulhu loses a carry of its middle sum", IS(MULHU), s->out = short_product(a, b));
    BUG(products, "mulhu by 1 gives rs1", IS(MULHU) && b == 1, s->out = a);
    BUG(products, "mulh by 0 gives the sign of rs1", IS(MULH) && !b, s->out = -SIGN(a));
    BUG(products, "div is divu", IS(DIV), s->out = computed(DIVU, a, b));
    BUG(products, "div rounds down", IS(DIV) && b && !exact && SIGN(a) != SIGN(b), s->out--);
    BUG(products, "div by 0 gives 0", IS(DIV) && !b, s->out = 0);
    BUG(products, "div by 0 gives 1 for a negative word", IS(DIV) && !b && SIGN(a), s->out = 1);
    BUG(products, "div of -2^31 by -1 gives 2^31-1", IS(DIV) && a == 0x80000000 && b == ~0u,
        s->out = 0x7fffffff);
    BUG(products, "div of -2^31 by -1 gives 0", IS(DIV) && a == 0x80000000 && b == ~0u, s->out = 0);
    BUG(products, "div by -1 gives its operand", IS(DIV) && b == ~0u, s->out = a);
    BUG(products, "div by -2^31 gives 0", IS(DIV) && b == 0x80000000, s->out = 0);
    BUG(products, "div takes -2^31 as 0", IS(DIV) && a == 0x80000000 && b, s->out = 0);
    BUG(products, "div has quotients of 31 bits", IS(DIV), s->out &= ~(1u << 30));
    BUG(products, "divu is div", IS(DIVU) && b, s->out = computed(DIV, a, b));
    BUG(products, "divu by 0 gives 0", IS(DIVU) && !b, s->out = 0);
    BUG(products, "divu by 2^31 and more gives 0", IS(DIVU) && SIGN(b), s->out = 0);
    BUG(products, "divu has quotients of 16 bits", IS(DIVU) && b, s->out &= 0xffff);
    BUG(products, "divu of equal words gives 0", IS(DIVU) && a == b && a, s->out = 0);
    BUG(products, "divu doesn't set bit 0 of a quotient", IS(DIVU) && b, s->out &= ~1u);
    BUG(products, "rem is remu", IS(REM), s->out = computed(REMU, a, b));
    BUG(products, "rem has the divisor's sign", IS(REM) && b && !exact && SIGN(a) != SIGN(b)
        && b != ~0u, s->out += b);
    BUG(products, "rem is never negative", IS(REM) && b && SIGN(s->out), s->out = -s->out);
    BUG(products, "rem by 0 gives 0", IS(REM) && !b, s->out = 0);
    BUG(products, "rem of -2^31 by -1 gives -2^31", IS(REM) && a == 0x80000000 && b == ~0u,
        s->out = a);
    BUG(products, "rem of a negative multiple gives the divisor", IS(REM) && exact && SIGN(a),
        s->out = b);
    BUG(products, "remu is rem", IS(REMU), s->out = computed(REM, a, b));
    BUG(products, "remu by 0 gives -1", IS(REMU) && !b, s->out = ~0u);
    BUG(products, "remu by 2^31 and more gives its operand", IS(REMU) && SIGN(b), s->out = a);
    BUG(products, "remu of a word below the divisor gives 0", IS(REMU) && a < b, s->out = 0);
}

static void jump_if(struct step *s, int taken)
{
    s->taken = taken;
    s->next = s->pc + (taken ? s->imm : 4);
}

static void break_jumps(struct step *s)
{
    uint32_t a = s->a, b = s->b;
    int back = SIGN(s->imm);
    BUG(jumps, "beq compares the lower halves alone", IS(BEQ), jump_if(s, !((a ^ b) & 0xffff)));
    BUG(jumps, "beq compares the upper halves alone", IS(BEQ), jump_if(s, !((a ^ b) >> 16)));
    BUG(jumps, "beq leaves bit 19 out", IS(BEQ), jump_if(s, !((a ^ b) & ~(1u << 19))));
    BUG(jumps, "bne compares the lower halves alone", IS(BNE), jump_if(s, (a ^ b) & 0xffff));
    BUG(jumps, "bne leaves bit 31 out", IS(BNE), jump_if(s, (a ^ b) << 1 != 0));
    BUG(jumps, "bne leaves bit 4 out", IS(BNE), jump_if(s, ((a ^ b) & ~16u) != 0));
    BUG(jumps, "blt compares unsigned", IS(BLT), jump_if(s, a < b));
    BUG(jumps, "blt is taken at equal words", IS(BLT) && a == b, jump_if(s, 1));
    BUG(jumps, "blt goes by the sign of the difference", IS(BLT), jump_if(s, SIGN(a - b)));
    BUG(jumps, "bge compares unsigned", IS(BGE), jump_if(s, a >= b));
    BUG(jumps, "bge isn't taken at equal words", IS(BGE) && a == b, jump_if(s, 0));
    BUG(jumps, "bge goes by the sign of the difference", IS(BGE), jump_if(s, !SIGN(a - b)));
    BUG(jumps, "bltu compares signed", IS(BLTU), jump_if(s, LESS(a, b)));
    BUG(jumps, "bltu is taken at equal words", IS(BLTU) && a == b, jump_if(s, 1));
    BUG(jumps, "bltu leaves bits 0 to 3 out", IS(BLTU), jump_if(s, a >> 4 < b >> 4));
    BUG(jumps, "bgeu compares signed", IS(BGEU), jump_if(s, !LESS(a, b)));
    BUG(jumps, "bgeu isn't taken at equal words", IS(BGEU) && a == b, jump_if(s, 0));
    BUG(jumps, "a branch back is never taken", BRANCH && back, jump_if(s, 0));
    BUG(jumps, "a branch back is always taken", BRANCH && back, jump_if(s, 1));
    BUG(jumps, "a branch goes on from the next pc", BRANCH && s->taken, s->next += 4);
    BUG(jumps, "a branch on one register isn't taken", BRANCH && s->rs1 == s->rs2, jump_if(s, 0));
    BUG(jumps, "a branch behind a branch isn't taken", BRANCH && in(&last, BEQ, BGEU),
        jump_if(s, 0));
    BUG(jumps, "a branch behind a load isn't taken", BRANCH && in(&last, LB, LHU), jump_if(s, 0));
    BUG(jumps, "jal links its own pc", IS(JAL), s->out = s->pc);
    BUG(jumps, "jal links the target", IS(JAL), s->out = s->next);
    BUG(jumps, "jal back links its own pc", IS(JAL) && back, s->out = s->pc);
    BUG(jumps, "jal to x0 links x1", IS(JAL) && !s->rd, s->rd = 1);
    BUG(jumps, "jal goes from the next pc", IS(JAL), s->next += 4);
    BUG(jumps, "jalr links its own pc", IS(JALR), s->out = s->pc);
    BUG(jumps, "jalr links the target", IS(JALR), s->out = s->next);
    BUG(jumps, "jalr doesn't link", IS(JALR), s->writes = 0);
    BUG(jumps, "jalr to x0 links x1", IS(JALR) && !s->rd, s->rd = 1);
    BUG(jumps, "jalr with rd and rs1 the same jumps behind its link",
        IS(JALR) && s->rd == s->rs1, s->next = s->out);
    BUG(jumps, "jalr leaves the lowest bit of its target", IS(JALR), s->next = a + s->imm);
    BUG(jumps, "jalr clears the lowest bit of rs1 alone", IS(JALR), s->next = (a & ~1u) + s->imm);
    BUG(jumps, "jalr clears the lowest bit of its immediate alone", IS(JALR),
        s->next = a + (s->imm & ~1u));
    BUG(jumps, "jalr goes from its own pc", IS(JALR), s->next = (s->pc + s->imm) & ~1u);
    BUG(jumps, "jalr loses the carry into bit 12", IS(JALR),
        s->next = cut_sum(a, s->imm, 12) & ~1u);
    BUG(jumps, "the instruction behind a fence is passed over", IS(FENCE), s->next += 4);
}

static void break_addresses(struct step *s)
{
    uint32_t lane = s->addr & 3, word = s->addr & ~3u;
    BUG(stores, "sb stores a whole word", IS(SB), (s->size = 4, s->addr = word));
    BUG(stores, "sb clears the byte above", IS(SB) && !(lane & 1), (s->size = 2, s->stored &= 255));
    BUG(stores, "sb clears the rest of its word", IS(SB),
        (s->size = 4, s->addr = word, s->stored = (s->stored & 255) << 8 * lane));
    BUG(stores, "sb goes to the first byte of its word", IS(SB), s->addr = word);
    BUG(stores, "sb to the last byte of a word is lost", IS(SB) && lane == 3, s->size = 0);
    BUG(stores, "sb to the second byte goes to the third", IS(SB) && lane == 1, s->addr++);
    BUG(stores, "sb stores the byte of its lane", IS(SB), s->stored >>= 8 * lane);
    BUG(stores, "sb stores seven bits", IS(SB), s->stored &= 127);
    BUG(stores, "sh stores a whole word", IS(SH) && !lane, s->size = 4);
    BUG(stores, "sh clears the other half", IS(SH),
        (s->size = 4, s->addr = word, s->stored = (s->stored & 0xffff) << 8 * lane));
    BUG(stores, "sh goes to the lower half", IS(SH), s->addr = word);
    BUG(stores, "sh stores one byte", IS(SH), s->size = 1);
    BUG(stores, "sh swaps its bytes", IS(SH), s->stored = (s->stored >> 8 & 255) | s->stored << 8);
    BUG(stores, "sw stores the lower half", IS(SW) && s->addr != tohost, s->size = 2);
    BUG(stores, "sw loses bit 20", IS(SW), s->stored &= ~(1u << 20));
    BUG(stores, "sw sets bit 9", IS(SW) && s->addr != tohost, s->stored |= 1u << 9);
    BUG(stores, "a store behind a store to its word is lost",
        STORE && last.size && word == (last.addr & ~3u), s->size = 0);
    BUG(stores, "a store of a byte undoes the one before it in the word",
        IS(SB) && last.op == SB && word == (last.addr & ~3u),
        (s->size = 4, s->addr = word,
         s->stored = (overwritten & ~(255u << 8 * lane)) | (s->stored & 255) << 8 * lane));
    BUG(stores, "a store behind a load of its word is lost",
        STORE && in(&last, LB, LHU) && word == (last.addr & ~3u), s->size = 0);
    BUG(loads, "a load takes no immediate", LOAD, s->addr = s->a);
    BUG(loads, "a load loses the carry into bit 12", LOAD, s->addr = cut_sum(s->a, s->imm, 12));
    BUG(loads, "lb reads the first byte of its word", IS(LB), s->addr = word);
    BUG(loads, "lbu swaps the bytes of a half", IS(LBU), s->addr ^= 1);
    BUG(loads, "lb in the third byte reads the second", IS(LB) && lane == 2, s->addr--);
    BUG(loads, "lh reads the lower half", IS(LH), s->addr = word);
    BUG(loads, "lhu reads the lower half", IS(LHU), s->addr = word);
}

/* Whether the step before stored to the word that this one loads. */
static int behind_store(const struct step *s)
{
    return LOAD && last.size && (last.addr & ~3u) == (s->addr & ~3u);
}

static void break_loads(struct step *s)
{
    uint32_t byte = load(s->addr, 1), half = load(s->addr, 2);
    BUG(loads, "lb doesn't extend its sign", IS(LB), s->out = byte);
    BUG(loads, "lb sets the upper bits always", IS(LB), s->out = byte | 0xffffff00);
    BUG(loads, "lb extends its sign by 8 bits", IS(LB), s->out &= 0xffff);
    BUG(loads, "lbu extends its sign", IS(LBU), s->out = extend(byte, 8));
    BUG(loads, "lh doesn't extend its sign", IS(LH), s->out = half);
    BUG(loads, "lh sets the upper bits always", IS(LH), s->out = half | 0xffff0000);
    BUG(loads, "lh takes the sign of its first byte", IS(LH),
        s->out = half | (byte & 128 ? 0xffff0000 : 0));
    BUG(loads, "lhu extends its sign", IS(LHU), s->out = extend(half, 16));
    BUG(loads, "lhu reads one byte", IS(LHU), s->out = byte);
    BUG(loads, "lw swaps its halves", IS(LW), s->out = s->out << 16 | s->out >> 16);
    BUG(loads, "lw loses bit 15", IS(LW), s->out &= ~(1u << 15));
    BUG(loads, "lw sets bit 12", IS(LW), s->out |= 1u << 12);
    BUG(loads, "a load to its own base is lost", LOAD && s->rd == s->rs1, s->writes = 0);
    BUG(loads, "a load to x0 isn't dropped but written to x1", LOAD && !s->rd, s->rd = 1);
    BUG(loads, "lw right behind a sw to its word reads the old one",
        IS(LW) && behind_store(s) && last.size == 4, s->out = overwritten);
    BUG(loads, "lw right behind a store to a part of its word reads the old word",
        IS(LW) && behind_store(s) && last.size < 4, s->out = overwritten);
    BUG(loads, "lw right behind a store to a part of its word reads the part alone",
        IS(LW) && behind_store(s) && last.size < 4, s->out = load(last.addr, last.size));
    BUG(loads, "a load of a part right behind a sw reads its lower end",
        LOAD && !IS(LW) && behind_store(s) && last.size == 4, s->out = loaded(s->op, last.stored));
    BUG(loads, "a load right behind a store to another part of its word reads what was stored",
        LOAD && behind_store(s) && last.addr != s->addr && last.size < 4 && !IS(LW),
        s->out = loaded(s->op, last.stored));
    BUG(loads, "lb right behind a sb to its byte doesn't extend its sign",
        IS(LB) && behind_store(s) && last.size == 1 && last.addr == s->addr, s->out = byte);
    BUG(loads, "a load right behind a store to another word reads what was stored",
        IS(LW) && last.op == SW && last.addr != s->addr, s->out = last.stored);
    BUG(loads, "a load behind a fence behind a store reads the old word",
        IS(LW) && last.op == FENCE && older.size && older.addr == s->addr, s->out = overwritten);
    BUG(loads, "a load right behind an amo to its word reads the old one",
        IS(LW) && in(&last, SC, AMAXU) && last.addr == s->addr, s->out = overwritten);
}

static void break_atomics(struct step *s)
{
    uint32_t old = s->out, b = s->b;
    int held = last.op == LR && last.addr == s->addr;
    BUG(atomics, "an amo gives the new word", MODIFIES, s->out = s->stored);
    BUG(atomics, "an amo to x0 doesn't store", MODIFIES && !s->rd, s->size = 0);
    BUG(atomics, "an amo with rd and rs2 the same computes with the old word",
        MODIFIES && s->rd == s->rs2, s->stored = computed(s->op, old, old));
    BUG(atomics, "an amo with rd and rs1 the same gives the address", MODIFIES && s->rd == s->rs1,
        s->out = s->addr);
    BUG(atomics, "amoswap.w doesn't store", IS(SWAP), s->size = 0);
    BUG(atomics, "amoadd.w loses the carry into bit 16", IS(AADD), s->stored = cut_sum(old, b, 16));
    BUG(atomics, "amoxor.w is amoor.w", IS(AXOR), s->stored = old | b);
    BUG(atomics, "amoor.w is amoxor.w", IS(AOR), s->stored = old ^ b);
    BUG(atomics, "amoand.w is amoswap.w", IS(AAND), s->stored = b);
    BUG(atomics, "amoand.w loses bit 31", IS(AAND), s->stored &= 0x7fffffff);
    BUG(atomics, "amomin.w is amominu.w", IS(AMIN), s->stored = computed(AMINU, old, b));
    BUG(atomics, "amomax.w is amomaxu.w", IS(AMAX), s->stored = computed(AMAXU, old, b));
    BUG(atomics, "amominu.w is amomin.w", IS(AMINU), s->stored = computed(AMIN, old, b));
    BUG(atomics, "amomaxu.w is amomax.w", IS(AMAXU), s->stored = computed(AMAX, old, b));
    BUG(atomics, "amomin.w is amomax.w", IS(AMIN), s->stored = computed(AMAX, old, b));
    BUG(atomics, "amomaxu.w stores rs2 always", IS(AMAXU), s->stored = b);
    BUG(atomics, "amominu.w compares the lower halves", IS(AMINU),
        s->stored = (old & 0xffff) < (b & 0xffff) ? old : b);
    BUG(atomics, "lr.w doesn't reserve", IS(LR), reserves = 0);
    BUG(atomics, "lr.w gives 0", IS(LR), s->out = 0);
    BUG(atomics, "sc.w stores always", IS(SC), (s->size = 4, s->out = 0));
    BUG(atomics, "sc.w that fails stores", IS(SC), s->size = 4);
    BUG(atomics, "sc.w gives 1 where it stored", IS(SC) && s->size, s->out = 1);
    BUG(atomics, "sc.w gives 0 where it didn't store", IS(SC), s->out = 0);
    BUG(atomics, "sc.w doesn't write rd where it stored", IS(SC) && s->size, s->writes = 0);
    BUG(atomics, "sc.w keeps the reservation", IS(SC) && s->size,
        (reserves = 1, reserved = s->addr));
    BUG(atomics, "sc.w that fails keeps the reservation", IS(SC) && !s->size && last.op == LR,
        reserves = 1);
    BUG(atomics, "sc.w takes any address for the one that is reserved",
        IS(SC) && !s->size && last.op == LR, (s->size = 4, s->out = 0));
    BUG(atomics, "a reservation lasts for one instruction", IS(SC) && !held,
        (s->size = 0, s->out = 1));
    BUG(atomics, "a branch loses the reservation", BRANCH, reserves = 0);
    BUG(atomics, "a second lr.w leaves the first one's reservation",
        IS(LR) && last.op == LR, reserved = last.addr);
}

/* The instructions behind a jump that are executed before it, so many. */
static void after(struct step *s, int places)
{
    waits = places + 1, waiting = s->next, s->next = s->pc + 4;
}

static void break_after(struct step *s)
{
    struct step behind = decoded(s->pc + 4, load(s->pc + 4, 4));
    int jumps = BRANCH && s->taken, back = SIGN(s->imm);
    BUG(registers, "x0 keeps what is written to it", s->writes && !s->rd, zero = s->out);
    BUG(registers, "x0 keeps what auipc writes to it", IS(AUIPC) && !s->rd, zero = s->out);
    BUG(registers, "x0 keeps what jalr writes to it", IS(JALR) && !s->rd, zero = s->out);
    BUG(registers, "x0 keeps what a load writes to it", LOAD && !s->rd, zero = s->out);
    BUG(registers, "x0 keeps what slli writes to it", IS(SLLI) && !s->rd, zero = s->out);
    BUG(registers, "x0 keeps what rem writes to it", IS(REM) && !s->rd, zero = s->out);
    BUG(registers, "x0 keeps what an amo writes to it", MODIFIES && !s->rd, zero = s->out);
    BUG(registers, "an instruction that writes x0 writes x16 too",
        s->writes && !s->rd && !in(s, JAL, JALR), regs[16] = s->out);
    BUG(jumps, "the instruction behind a taken branch is executed", jumps, after(s, 1));
    BUG(jumps, "the instruction behind a taken branch back is executed", jumps && back,
        after(s, 1));
    BUG(jumps, "two instructions behind a taken branch are executed where the second stores",
        jumps && decoded(0, load(s->pc + 8, 4)).op == SW, after(s, 2));
    BUG(jumps, "the instruction behind jal is executed", IS(JAL) && s->rd, after(s, 1));
    BUG(jumps, "the instruction behind jalr is executed", IS(JALR), after(s, 1));
    BUG(jumps, "a load behind a taken branch is executed", jumps && in(&behind, LB, LHU),
        after(s, 1));
    BUG(jumps, "a store behind jalr is executed", IS(JALR) && in(&behind, SB, SW), after(s, 1));
    BUG(jumps, "a jump behind a taken branch is taken", jumps && behind.op == JAL,
        s->next = behind.pc + behind.imm);
}

/* What no test can show: the reference machine ends a run there, has no such memory, or may not
   differ from another core of the manual. */
static void break_unseen(struct step *s)
{
    BUG(unseen, "ecall does nothing", s->word == 0x73, s->op = FENCE);
    BUG(unseen, "ebreak does nothing", s->word == 0x100073, s->op = FENCE);
    BUG(unseen, "a word that is no instruction does nothing", IS(NONE), s->op = FENCE);
    BUG(unseen, "fence.i does nothing", s->word == 0x100f, s->op = FENCE);
    BUG(unseen, "csrrs gives 0", (s->word & 0x707f) == 0x2073,
        (s->op = LUI, s->imm = 0, s->writes = 1));
    BUG(unseen, "a jump to an address that is no multiple of 4 goes to the word there", s->next & 2,
        s->next &= ~3u);
    BUG(unseen, "a misaligned amo is done", in(s, LR, AMAXU) && s->a & 3, (void)0);
    BUG(unseen, "a store to the text is done", STORE && (s->a + s->imm) >> 24 == 0x80, (void)0);
    BUG(unseen, "a load outside memory gives 0", LOAD && !at(s->a + s->imm, 1), (void)0);
    BUG(unseen, "bit 26 of addresses is dropped", in(s, LB, SW),
        s->a = ((s->a + s->imm) & ~(1u << 26)) - s->imm);
    BUG(unseen, "registers begin with other words than 0", !last.pc, regs[17] = 0x5a5a5a5a);
    BUG(unseen, "the bits aq and rl order nothing", in(s, LR, AMAXU), (void)0);
    BUG(unseen, "fence orders nothing", IS(FENCE), (void)0);
    BUG(unseen, "a division takes a thousand cycles", in(s, DIV, REMU), (void)0);
}

enum { BUGS = __COUNTER__ };
