// lw: of its two cases the second is for cores alone that load words from any address.
#include "model_test.h"
#include "arch_test.h"
RVTEST_ISA("RV32I,RV64I")

.section .text.init
.globl rvtest_entry_point
rvtest_entry_point:
RVMODEL_BOOT
RVTEST_CODE_BEGIN

RVTEST_SIGBASE(x3, signature_x3_1)

#ifdef TEST_CASE_1
RVTEST_CASE(1,"//check ISA:=regex(.*I.*);def TEST_CASE_1=True;",lw-align)

inst_0: // an immediate above 0
TEST_LOAD(x3, x4, 0, x10, x11, 4, 0, lw, 0)
inst_1: // one below 0
TEST_LOAD(x3, x4, 1, x12, x13, -2048, 4, lw, 0)
inst_2: // rs1 == rd
TEST_LOAD(x3, x4, 2, x14, x14, 0, 8, lw, 0)
#endif

#ifdef TEST_CASE_2
RVTEST_CASE(2,"//check ISA:=regex(.*I.*); check hw_data_misaligned_support:=True ; def TEST_CASE_2=True",lw-misaligned)

inst_3: // one, two and three bytes behind the first word
TEST_LOAD(x3, x4, 0, x10, x11, 0, 0, lw, 1)
TEST_LOAD(x3, x4, 0, x10, x11, 1, 4, lw, 2)
TEST_LOAD(x3, x4, 0, x10, x11, -1, 8, lw, 3)
#endif

RVTEST_CODE_END
RVMODEL_HALT

RVTEST_DATA_BEGIN
.balign 4
rvtest_data:
.word 0xbabecafe
.word 0xabecafeb
.word 0x01234567
RVTEST_DATA_END

RVMODEL_DATA_BEGIN
signature_x3_1:
    .fill 3, 4, 0xdeadbeef
RVMODEL_DATA_END
