pass
.global vdd
.model nch nmos
.model pch pmos
m1 u s v 0 nch
m2 u sb v vdd pch
.end
