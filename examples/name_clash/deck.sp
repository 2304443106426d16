clash
.subckt s a
r1 a n 1k
r2 n 0 1k
.ends
x1 p s
r3 x1.n 0 2k
.end
