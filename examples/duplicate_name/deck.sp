t
r1 a b 1k
.subckt s a
r1 a 0 1
.ends
R1 c d 2k
