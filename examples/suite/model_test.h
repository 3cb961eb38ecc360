// What architecture tests ask of a model, for a core with the memory of link.ld: it starts at the
// test's first instruction with nothing to set up, and halts by a store of 1 to `tohost`.
#ifndef MODEL_TEST_H
#define MODEL_TEST_H

#define RVMODEL_BOOT

#define RVMODEL_HALT        \
    li x1, 1;               \
    la x2, tohost;          \
    sw x1, 0(x2);           \
self_loop:                  \
    j self_loop;

#define RVMODEL_DATA_BEGIN                 \
    .pushsection .tohost, "aw", @progbits; \
    .balign 8;                             \
    .globl tohost;                         \
tohost:                                    \
    .fill 2, 4, 0;                         \
    .popsection;                           \
    .balign 16;                            \
    .globl begin_signature;                \
begin_signature:

#define RVMODEL_DATA_END    \
    .balign 16;             \
    .globl end_signature;   \
end_signature:

// Neither messages nor interrupts: a test is judged by its signature.
#define RVMODEL_IO_INIT
#define RVMODEL_IO_WRITE_STR(...)
#define RVMODEL_IO_CHECK(...)
#define RVMODEL_IO_ASSERT_GPR_EQ(...)
#define RVMODEL_IO_ASSERT_SFPR_EQ(...)
#define RVMODEL_IO_ASSERT_DFPR_EQ(...)
#define RVMODEL_SET_MSW_INT
#define RVMODEL_CLEAR_MSW_INT
#define RVMODEL_CLEAR_MTIMER_INT
#define RVMODEL_CLEAR_MEXT_INT

#endif
