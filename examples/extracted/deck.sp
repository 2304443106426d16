* extracted
.subckt top in out vdd gnd
M1000 mid in vdd vdd pch w=4u l=1u
+ ad=8p as=8p pd=10u ps=10u
M1001 mid in gnd gnd nch w=2u l=1u
+ ad=4p as=4p pd=6u ps=6u
M1002 out mid vdd vdd pch w=4u l=1u
+ ad=8p as=8p pd=10u ps=10u
M1003 out mid gnd gnd nch w=2u l=1u
+ ad=4p as=4p pd=6u ps=6u
C1 mid gnd 2.1fF
.ends
.end
