.subckt par p q
ra p q 1k
rb p q 1k
.ends par
