three levels
.global vdd
.model nch nmos
.model pch pmos
.subckt inv_v1 a y
mp y a vdd vdd pch w=1u
mn y a 0 0 nch w=1u
.ends inv_v1
.subckt inv_v2 a y
mp y a vdd vdd pch w=2u
mn y a 0 0 nch w=2u
.ends inv_v2
.subckt buf_v1 a y
x1 a n inv_v1
x2 n y inv_v1
.ends buf_v1
.subckt buf_v2 a y
x1 a n inv_v2
x2 n y inv_v2
.ends buf_v2
.subckt quad_v1 a y
x1 a n buf_v1
x2 n y buf_v2
.ends quad_v1
xg7 a e quad_v1
.end
