.global vdd
.subckt nand2 a b y
mp1 y a vdd vdd pch
mp2 y b vdd vdd pch
mn1 y a x 0 nch
mn2 x b 0 0 nch
.ends
.subckt latch s r q qb
x1 s qb q nand2
x2 r q qb nand2
.ends
