slow
.global vdd
.model nch nmos
.model pch pmos
m1 n in vdd vdd pch
m2 n in 0 0 nch
r1 n out 1k
r2 in out 1k
.end
