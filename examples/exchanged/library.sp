* gates
.global vdd
.subckt inv a y
mp y a vdd vdd pch
mn y a 0 0 nch
.ends
