one inverter
.global vdd
.model nch nmos
.model pch pmos
m1 out in vdd vdd pch w=4u l=1u
m2 out in 0 0 nch w=2u l=1u
.end
