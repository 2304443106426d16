* extracted
.subckt inv_v1 a y vdd gnd
mp y a vdd vdd pch w=4u l=1u ad=8p as=8p pd=10u ps=10u
mn y a gnd gnd nch w=2u l=1u ad=4p as=4p pd=6u ps=6u
.ends inv_v1
.subckt top in out vdd gnd
xg1 in mid vdd gnd inv_v1
xg2 mid out vdd gnd inv_v1
c1 mid gnd 2.1fF
.ends top
.end
