exchanged
.global vdd
.model nch nmos
.model pch pmos
.subckt inv_v1 a y
mp vdd a y vdd pch ad=1p as=2p
mn y a 0 0 nch ad=3p as=4p
.ends inv_v1
xg1 in out inv_v1
.end
