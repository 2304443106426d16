two gates below X cards
.global vdd
.model nch nmos
.model pch pmos
.subckt inv_v1 a y
mp y a vdd vdd pch
mn y a 0 0 nch
.ends inv_v1
xg1 a b inv_v1
xg2 b c inv_v1
.end
