nest
.subckt cellb p
m3 p n 0 0 nch w=1u
c1 n 0 1p
.ends
.subckt cella q
x1 q cellb
.ends
x2 top1 cella
.end
