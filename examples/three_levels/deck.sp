three levels
.global vdd
.model nch nmos
.model pch pmos
m1 b a vdd vdd pch w=1u
m2 b a 0 0 nch w=1u
m3 c b vdd vdd pch w=1u
m4 c b 0 0 nch w=1u
m5 d c vdd vdd pch w=2u
m6 d c 0 0 nch w=2u
m7 e d vdd vdd pch w=2u
m8 e d 0 0 nch w=2u
.end
