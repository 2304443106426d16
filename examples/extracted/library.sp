* an inverter with power as ports
.subckt inv a y vdd gnd
mp y a vdd vdd pch
mn y a gnd gnd nch
.ends
