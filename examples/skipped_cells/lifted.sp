one inverter
.global vdd
.model nch nmos
.model pch pmos
.subckt inv_v1 a y
mp y a vdd vdd pch w=4u l=1u
mn y a 0 0 nch w=2u l=1u
.ends inv_v1
xg1 in out inv_v1
.end
