slow
.global vdd
.model nch nmos
.model pch pmos
.subckt inv_v1 a y
mp y a vdd vdd pch
mn y a 0 0 nch
.ends inv_v1
.subckt slow_v1 a y
x1 a n inv_v1
r1 n y 1k
.ends slow_v1
xg2 in out slow_v1
r2 in out 1k
.end
