names with dots
.subckt s a
r1 a n 1k
.ends
r.x2.r1 x2.n 0 1k
r2 x2.n 0 2k
x1 p s
