pass
.global vdd
.model nch nmos
.model pch pmos
.subckt tg_v1 p q c cb
mn p c q 0 nch
mp p cb q vdd pch
.ends tg_v1
xg1 u v s sb tg_v1
.end
