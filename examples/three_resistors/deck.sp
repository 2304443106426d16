three resistors between two nets
R1 A,B 1k
r2 (a b) 1k
r3 b
* the second node is on the next line
+ a 1k
.options reltol=1e-4
.end
