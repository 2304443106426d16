two gates below X cards
.global vdd
.model nch nmos
.model pch pmos
.subckt gate i o
mp o i vdd vdd pch
mn o i 0 0 nch
.ends
x1 a b gate
x2 b c gate
.end
