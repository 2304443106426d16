exchanged
.global vdd
.model nch nmos
.model pch pmos
m1 vdd in out vdd pch ad=1p as=2p
m2 out in 0 0 nch ad=3p as=4p
.end
