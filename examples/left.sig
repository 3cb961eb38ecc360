00000001
ffffffff
