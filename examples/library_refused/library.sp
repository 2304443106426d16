.subckt k p
x1 p s
r1 x1.n p 1
.ends
.subckt s a
r1 a n 1
r2 n 0 1
.ends
