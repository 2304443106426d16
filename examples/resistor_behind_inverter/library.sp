.global vdd
.subckt inv a y
mp y a vdd vdd pch
mn y a 0 0 nch
.ends
.subckt slow a y
x1 a n inv
r1 n y
.ends
