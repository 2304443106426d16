.global vdd
.subckt fill a b
.ends
.subckt odd a b
r1 a 0 1
.ends
.subckt dbl a b
x1 a b fill
.ends
.subckt inv a y
mp y a vdd vdd pch
mn y a 0 0 nch
.ends
