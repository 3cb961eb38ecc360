// add: registers that are the same, x0, and words at both ends.
#include "model_test.h"
#include "arch_test.h"
RVTEST_ISA("RV32I")

.section .text.init
.globl rvtest_entry_point
rvtest_entry_point:
RVMODEL_BOOT
RVTEST_CODE_BEGIN

#ifdef TEST_CASE_1
RVTEST_CASE(1,"//check ISA:=regex(.*32.*);check ISA:=regex(.*I.*);def TEST_CASE_1=True;",add)

RVTEST_SIGBASE(x3, signature_x3_1)

inst_0: // all registers differ
TEST_RR_OP(add, x31, x1, x15, 0x00000003, 1, 2, x3, 0, x4)
inst_1: // rs1 == rs2 != rd
TEST_RR_OP(add, x15, x31, x31, 0xfffffffe, -1, -1, x3, 4, x4)
inst_2: // rs1 == rd != rs2
TEST_RR_OP(add, x1, x1, x2, 0x80000000, 0x7fffffff, 1, x3, 8, x4)
inst_3: // rd is x0
TEST_RR_OP(add, x0, x5, x6, 0x00000000, 5, 6, x3, 12, x4)
inst_4: // rs1 is x0
TEST_RR_OP(add, x7, x0, x8, 0xaaaaaaaa, 0, 0xaaaaaaaa, x3, 16, x4)
inst_5: // the least words
TEST_RR_OP(add, x9, x10, x11, 0x00000000, -0x80000000, -0x80000000, x3, 20, x4)
#endif

RVTEST_CODE_END
RVMODEL_HALT

RVTEST_DATA_BEGIN
.balign 4
rvtest_data:
.word 0xbabecafe
RVTEST_DATA_END

RVMODEL_DATA_BEGIN
signature_x3_1:
    .fill 6, 4, 0xdeadbeef
RVMODEL_DATA_END
