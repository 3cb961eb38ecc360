# Stores 1 to tohost, which halts the machine. The signature is one word.
    lui x5, %hi(tohost)
    addi x6, x0, 1
    sw x6, %lo(tohost)(x5)
.data
begin_signature:
.word 7
end_signature:
tohost:
.word 0
