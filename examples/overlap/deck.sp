a gate and an inverter that share a transistor
.global vdd
.model nch nmos
.model pch pmos
m1 y a vdd vdd pch
m2 y b vdd vdd pch
m3 y a x 0 nch
m4 x b 0 0 nch
m5 y a 0 0 nch
.end
