one inverter
.model pch pmos
.model nch nmos
.global vdd
xg1 in out inv_v1
.subckt inv_v1 a y
mn y a 0 0 nch w=2u l=1u
mp y a vdd vdd pch w=6u l=1u
.ends
.end
