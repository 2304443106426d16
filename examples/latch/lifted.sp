latch
.global vdd
.model nch nmos
.model pch pmos
.subckt nand2_v1 a b y
mp1 y a vdd vdd pch
mp2 y b vdd vdd pch
mn1 y a x 0 nch
mn2 x b 0 0 nch
.ends nand2_v1
.subckt latch_v1 s r q qb
x1 s qb q nand2_v1
x2 r q qb nand2_v1
.ends latch_v1
xg3 sn rn q qn latch_v1
.end
