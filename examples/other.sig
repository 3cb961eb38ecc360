00000001
fffffffe
