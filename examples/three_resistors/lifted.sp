three resistors between two nets
.subckt par_v1 p q
ra p q 1k
rb p q 1k
.ends par_v1
xg1 a b par_v1
r3 b a 1k
.options reltol=1e-4
.end
