t
+ x
