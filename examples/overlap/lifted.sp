a gate and an inverter that share a transistor
.global vdd
.model nch nmos
.model pch pmos
.subckt inv_v1 a y
mp y a vdd vdd pch
mn y a 0 0 nch
.ends inv_v1
xg1 a y inv_v1
m2 y b vdd vdd pch
m3 y a x 0 nch
m4 x b 0 0 nch
.end
