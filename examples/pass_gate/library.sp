.global vdd
.subckt tg p q c cb
mn p c q 0 nch
mp p cb q vdd pch
.ends
