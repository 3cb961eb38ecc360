/* Runs an image file of RV32IM as a plain C program may: it keeps each executed instruction with
   its address, its word, the words of its source registers and what it wrote, and nothing else. It
   is what the time of `rvsuite reference` is held against.

   cc -O2 -o interpreter interpreter.c && ./interpreter IMAGE STEPS */
#include <stdint.h>
#include <stdio.h>
#include <stdlib.h>
#include <string.h>

struct commit {
    uint8_t there, reg;
    uint32_t value;
};

struct executed {
    uint32_t pc, word, v1, v2;
    struct commit commit;
};

static uint8_t *text, *data;
static uint32_t text_size, data_size, tohost, regs[32];
static struct executed *trace;
static size_t count, room;

enum { TEXT = 0x80000000u, DATA = 0x81000000u };

static uint32_t words(FILE *file, const char *name, uint8_t **bytes)
{
    uint32_t n, word;
    char found[8];
    if (fscanf(file, "%7s %u", found, &n) != 2 || strcmp(found, name) || n > 1 << 22)
        exit(2);
    *bytes = malloc(4 * (size_t)n + 4);
    for (uint32_t i = 0; i < n; i++) {
        if (fscanf(file, "%x", &word) != 1)
            exit(2);
        memcpy(*bytes + 4 * i, &word, 4);
    }
    return 4 * n;
}

/* The bytes of an access, or 0 where they aren't in memory. */
static uint8_t *at(uint32_t addr, uint32_t size, int writes)
{
    if (addr % size)
        return 0;
    if (addr - DATA < data_size && data_size - (addr - DATA) >= size)
        return data + (addr - DATA);
    if (!writes && addr - TEXT < text_size && text_size - (addr - TEXT) >= size)
        return text + (addr - TEXT);
    return 0;
}

static int load(uint32_t funct3, uint32_t addr, uint32_t *value)
{
    uint8_t *from = at(addr, 1u << (funct3 & 3), 0);
    uint16_t half;
    if (!from)
        return 0;
    switch (funct3) {
    case 0:
        *value = (uint32_t)(int8_t)*from;
        return 1;
    case 1:
        memcpy(&half, from, 2);
        *value = (uint32_t)(int16_t)half;
        return 1;
    case 2:
        memcpy(value, from, 4);
        return 1;
    case 4:
        *value = *from;
        return 1;
    case 5:
        memcpy(&half, from, 2);
        *value = half;
        return 1;
    }
    return 0;
}

static uint32_t multiplied(uint32_t funct3, uint32_t a, uint32_t b)
{
    switch (funct3) {
    case 0:
        return a * b;
    case 1:
        return (uint32_t)((uint64_t)((int64_t)(int32_t)a * (int32_t)b) >> 32);
    case 2:
        return (uint32_t)((uint64_t)((int64_t)(int32_t)a * b) >> 32);
    case 3:
        return (uint32_t)((uint64_t)a * b >> 32);
    case 4:
        if (b == 0)
            return ~0u;
        return a == 0x80000000u && b == ~0u ? a : (uint32_t)((int32_t)a / (int32_t)b);
    case 5:
        return b == 0 ? ~0u : a / b;
    case 6:
        if (b == 0)
            return a;
        return a == 0x80000000u && b == ~0u ? 0 : (uint32_t)((int32_t)a % (int32_t)b);
    default:
        return b == 0 ? a : a % b;
    }
}

static uint32_t computed(uint32_t funct3, int alternate, uint32_t a, uint32_t b)
{
    switch (funct3) {
    case 0:
        return alternate ? a - b : a + b;
    case 1:
        return a << (b & 31);
    case 2:
        return (int32_t)a < (int32_t)b;
    case 3:
        return a < b;
    case 4:
        return a ^ b;
    case 5:
        return alternate ? (uint32_t)((int32_t)a >> (b & 31)) : a >> (b & 31);
    case 6:
        return a | b;
    default:
        return a & b;
    }
}

static int branches(uint32_t funct3, uint32_t a, uint32_t b, int *taken)
{
    switch (funct3) {
    case 0:
        *taken = a == b;
        return 1;
    case 1:
        *taken = a != b;
        return 1;
    case 4:
        *taken = (int32_t)a < (int32_t)b;
        return 1;
    case 5:
        *taken = (int32_t)a >= (int32_t)b;
        return 1;
    case 6:
        *taken = a < b;
        return 1;
    case 7:
        *taken = a >= b;
        return 1;
    }
    return 0;
}

static uint32_t sign(uint32_t word)
{
    return (uint32_t)((int32_t)word >> 31);
}

/* Room for one more. */
static void grow(void)
{
    room = room ? 2 * room : 1024;
    trace = realloc(trace, room * sizeof *trace);
    if (!trace)
        exit(3);
}

/* Runs to a trap, to the store that halts, or to the limit. */
static int run(uint32_t pc, size_t limit)
{
    while (count < limit) {
        uint32_t word, rd, funct3, funct7, next = pc + 4, value = 0, addr, v1 = 0, v2 = 0;
        int taken, writes = 0, halts = 0;
        uint8_t *to;
        if (pc - TEXT >= text_size)
            return 1;
        memcpy(&word, text + (pc - TEXT), 4);
        rd = word >> 7 & 31;
        funct3 = word >> 12 & 7;
        funct7 = word >> 25;
        switch (word & 0x7f) {
        case 0x37:
            value = word & 0xfffff000, writes = 1;
            break;
        case 0x17:
            value = pc + (word & 0xfffff000), writes = 1;
            break;
        case 0x6f:
            value = next, writes = 1;
            next = pc + (sign(word) << 20 | (word & 0xff000) | (word >> 9 & 0x800)
                         | (word >> 20 & 0x7fe));
            break;
        case 0x67:
            if (funct3)
                return 1;
            v1 = regs[word >> 15 & 31];
            value = next, writes = 1;
            next = (v1 + (uint32_t)((int32_t)word >> 20)) & ~1u;
            break;
        case 0x63:
            v1 = regs[word >> 15 & 31], v2 = regs[word >> 20 & 31];
            if (!branches(funct3, v1, v2, &taken))
                return 1;
            if (taken)
                next = pc + (sign(word) << 12 | (word << 4 & 0x800) | (word >> 20 & 0x7e0)
                             | (word >> 7 & 0x1e));
            break;
        case 0x03:
            v1 = regs[word >> 15 & 31];
            if (!load(funct3, v1 + (uint32_t)((int32_t)word >> 20), &value))
                return 1;
            writes = 1;
            break;
        case 0x23:
            v1 = regs[word >> 15 & 31], v2 = regs[word >> 20 & 31];
            addr = v1 + ((uint32_t)((int32_t)word >> 25) << 5 | rd);
            if (funct3 > 2 || !(to = at(addr, 1u << funct3, 1)))
                return 1;
            memcpy(to, &v2, 1u << funct3);
            halts = funct3 == 2 && addr == tohost && v2 == 1;
            break;
        case 0x13:
            v1 = regs[word >> 15 & 31];
            if ((funct3 == 1 && funct7) || (funct3 == 5 && funct7 & ~0x20u))
                return 1;
            value = computed(funct3, funct3 == 5 && funct7, v1, (uint32_t)((int32_t)word >> 20));
            writes = 1;
            break;
        case 0x33:
            v1 = regs[word >> 15 & 31], v2 = regs[word >> 20 & 31];
            if (funct7 == 1)
                value = multiplied(funct3, v1, v2);
            else if (funct7 == 0 || (funct7 == 0x20 && (funct3 == 0 || funct3 == 5)))
                value = computed(funct3, funct7 != 0, v1, v2);
            else
                return 1;
            writes = 1;
            break;
        case 0x0f:
            if (funct3)
                return 1;
            break;
        default:
            return 1;
        }
        if (next & 3)
            return 1;
        if (count == room)
            grow();
        writes = writes && rd;
        if (writes)
            regs[rd] = value;
        trace[count++] = (struct executed){pc, word, v1, v2, {(uint8_t)writes, (uint8_t)rd, value}};
        pc = next;
        if (halts)
            return 0;
    }
    return 2;
}

int main(int argc, char **argv)
{
    FILE *file = argc == 3 ? fopen(argv[1], "r") : 0;
    int version, end;
    if (!file || fscanf(file, "rvimage %d", &version) != 1)
        return 2;
    text_size = words(file, "text", &text);
    data_size = words(file, "data", &data);
    if (fscanf(file, " tohost %x", &tohost) != 1)
        return 2;
    end = run(TEXT, strtoull(argv[2], 0, 10));
    printf("%d %zu\n", end, count);
    return 0;
}
