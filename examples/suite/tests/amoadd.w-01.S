// amoadd.w: the word that was in memory, and the one that is there after it.
#include "model_test.h"
#include "arch_test.h"
RVTEST_ISA("RV32IA")

.section .text.init
.globl rvtest_entry_point
rvtest_entry_point:
RVMODEL_BOOT
RVTEST_CODE_BEGIN

#ifdef TEST_CASE_1
RVTEST_CASE(1,"//check ISA:=regex(.*32.*);check ISA:=regex(.*A.*);def TEST_CASE_1=True;",amoadd.w)

RVTEST_SIGBASE(x3, signature_x3_1)
LA(x5, rvtest_data)

inst_0:
LI(x6, 2)
TEST_CASE(x4, x7, 0xfffffffe, x3, 0, amoadd.w x7, x6, (x5))
TEST_CASE(x4, x8, 0x00000000, x3, 4, lw x8, 0(x5))
inst_1: // rd == rs2
LI(x6, -1)
TEST_CASE(x4, x6, 0x00000000, x3, 8, amoadd.w x6, x6, (x5))
TEST_CASE(x4, x8, 0xffffffff, x3, 12, lw x8, 0(x5))
#endif

RVTEST_CODE_END
RVMODEL_HALT

RVTEST_DATA_BEGIN
.balign 4
rvtest_data:
.word 0xfffffffe
RVTEST_DATA_END

RVMODEL_DATA_BEGIN
signature_x3_1:
    .fill 4, 4, 0xdeadbeef
RVMODEL_DATA_END
