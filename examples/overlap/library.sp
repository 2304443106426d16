.global vdd
.subckt inv a y
mp y a vdd vdd pch
mn y a 0 0 nch
.ends
.subckt nand2 a b y
mp1 y a vdd vdd pch
mp2 y b vdd vdd pch
mn1 y a x 0 nch
mn2 x b 0 0 nch
.ends
