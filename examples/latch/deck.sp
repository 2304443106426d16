latch
.global vdd
.model nch nmos
.model pch pmos
m1 q sn vdd vdd pch
m2 q qn vdd vdd pch
m3 q sn k1 0 nch
m4 k1 qn 0 0 nch
m5 qn rn vdd vdd pch
m6 qn q vdd vdd pch
m7 qn rn k2 0 nch
m8 k2 q 0 0 nch
.end
