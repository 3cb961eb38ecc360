/* Reads a log of Spike or Sail as fast as a plain C program may: each line to its address, its word and what it wrote,
   the registers kept. It is what the rate of `rvsuite coverage` is held against.

   cc -O2 -o parse parse.c && ./parse LOG */
#include <fcntl.h>
#include <stdint.h>
#include <stdio.h>
#include <string.h>
#include <unistd.h>

static signed char digit[256];
static uint32_t regs[32];

static const char *word(const char *at, const char *end, uint32_t *value)
{
    uint32_t v = 0;
    const char *first;
    if (end - at < 3 || at[0] != '0' || at[1] != 'x')
        return 0;
    at += 2;
    first = at;
    while (at < end && digit[(unsigned char)*at] >= 0)
        v = v << 4 | (uint32_t)digit[(unsigned char)*at++];
    if (at == first)
        return 0;
    *value = v;
    return at;
}

static const char *spaces(const char *at, const char *end)
{
    if (at == end || *at != ' ')
        return 0;
    while (at < end && *at == ' ')
        at++;
    return at;
}

/* a register and what it got, after its letter */
static void commit(const char *at, const char *end, const char *arrow)
{
    uint32_t value;
    unsigned reg = 0;
    for (; at < end && *at >= '0' && *at <= '9'; at++)
        reg = 10 * reg + (unsigned)(*at - '0');
    if (reg >= 32 || !(at = spaces(at, end)))
        return;
    if (arrow && (end - at < 2 || memcmp(at, arrow, 2) || !(at = spaces(at + 2, end))))
        return;
    if (word(at, end, &value) && reg)
        regs[reg] = value;
}

/* an address and a word in brackets */
static const char *insn(const char *at, const char *end, uint64_t *sum)
{
    uint32_t pc, word_of;
    if (!(at = word(at, end, &pc)) || !(at = spaces(at, end)) || at == end || *at++ != '('
        || !(at = word(at, end, &word_of)) || at == end || *at++ != ')')
        return 0;
    *sum += pc ^ word_of ^ regs[word_of >> 15 & 31] ^ regs[word_of >> 20 & 31];
    return at;
}

/* a line of Sail: `[N] [M]: ` and an instruction, or `xN <- ` and a word */
static int sail_line(const char *at, const char *end, uint64_t *sum)
{
    if (at < end && *at == 'x') {
        commit(at + 1, end, "<-");
        return 0;
    }
    if (at == end || *at++ != '[')
        return 0;
    while (at < end && *at >= '0' && *at <= '9')
        at++;
    if (at == end || *at++ != ']' || !(at = spaces(at, end)) || at == end || *at++ != '[')
        return 0;
    while (at < end && *at >= 'A' && *at <= 'Z')
        at++;
    if (end - at < 2 || memcmp(at, "]:", 2) || !(at = spaces(at + 2, end)))
        return 0;
    return insn(at, end, sum) != 0;
}

static int line(const char *at, const char *end, uint64_t *sum)
{
    if (end - at < 4 || memcmp(at, "core", 4))
        return sail_line(at, end, sum);
    if (!(at = spaces(at + 4, end)))
        return 0;
    while (at < end && *at >= '0' && *at <= '9')
        at++;
    if (at == end || *at++ != ':' || !(at = spaces(at, end)))
        return 0;
    if (at == end || *at < '0' || *at > '3' || !(at = spaces(at + 1, end)) || !(at = insn(at, end, sum)))
        return 0;
    if (at < end && (at = spaces(at, end)) && at < end && *at == 'x')
        commit(at + 1, end, 0);
    return 1;
}

int main(int argc, char **argv)
{
    static char buffer[65536 + 4096];
    uint64_t count = 0, sum = 0;
    size_t kept = 0;
    ssize_t got;
    int c, fd = argc > 1 ? open(argv[1], O_RDONLY) : -1;
    if (fd < 0)
        return 2;
    memset(digit, -1, sizeof digit);
    for (c = 0; c < 10; c++)
        digit['0' + c] = (signed char)c;
    for (c = 0; c < 6; c++)
        digit['a' + c] = digit['A' + c] = (signed char)(10 + c);
    while ((got = read(fd, buffer + kept, 65536)) > 0) {
        const char *at = buffer, *end = buffer + kept + got, *feed;
        while ((feed = memchr(at, '\n', (size_t)(end - at)))) {
            count += (uint64_t)line(at, feed, &sum);
            at = feed + 1;
        }
        kept = (size_t)(end - at);
        if (kept > 4096)
            kept = 0;
        memmove(buffer, at, kept);
    }
    printf("instructions %llu (%llx)\n", (unsigned long long)count, (unsigned long long)sum);
    return 0;
}
