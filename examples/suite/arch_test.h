// The macros of architecture tests that tests/ uses. A suite that has an arch_test.h of its own is
// built with that one (HEADERS of build.sh).
#ifndef ARCH_TEST_H
#define ARCH_TEST_H

// For build.sh to read: which cores a test is for, and what each of its cases asks and defines.
#define RVTEST_ISA(isa)
#define RVTEST_CASE(...)

#define LI(reg, value) li reg, value
#define LA(reg, place) la reg, place

#define RVTEST_CODE_BEGIN           \
    .option push;                   \
    .option norvc;                  \
    .globl rvtest_code_begin;       \
rvtest_code_begin:

#define RVTEST_CODE_END             \
    .globl rvtest_code_end;         \
rvtest_code_end:                    \
    .option pop;

#define RVTEST_DATA_BEGIN           \
    .data;                          \
    .balign 16;                     \
    .globl rvtest_data_begin;       \
rvtest_data_begin:

#define RVTEST_DATA_END             \
    .globl rvtest_data_end;         \
rvtest_data_end:

// The register `base` leads to the words of the signature from `place` on.
#define RVTEST_SIGBASE(base, place) LA(base, place);
#define RVTEST_SIGUPD(base, reg, offset) sw reg, offset(base);

// Each case stores what its instruction left in `dest`. The value that it should be is for the
// reader: the reference machine says it too. `test` is a register that a case may use.
#define TEST_CASE(test, dest, correct, base, offset, code...)   \
    code;                                                       \
    RVTEST_SIGUPD(base, dest, offset)

#define TEST_RR_OP(inst, dest, reg1, reg2, correct, val1, val2, base, offset, test) \
    LI(reg1, val1);                                                                 \
    LI(reg2, val2);                                                                 \
    TEST_CASE(test, dest, correct, base, offset, inst dest, reg1, reg2)

// A load from `adjust` bytes behind word number `index` of rvtest_data.
#define TEST_LOAD(base, test, index, reg1, dest, imm, offset, inst, adjust)         \
    LA(reg1, rvtest_data + (index * 4) + (adjust) - (imm));                         \
    inst dest, imm(reg1);                                                           \
    RVTEST_SIGUPD(base, dest, offset)

#endif
