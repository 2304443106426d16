.global vdd
.subckt inv a y
mp y a vdd vdd pch
mn y a 0 0 nch
.ends
.subckt buf a y
x1 a n inv
x2 n y inv
.ends
.subckt quad a y
x1 a n buf
x2 n y buf
.ends
