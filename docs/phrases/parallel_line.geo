% proved: the intercept theorem, with lines
point A
point B
point C
online P A B
line a B C
parallel p P a
line b A C
intersec Q p b
prove { equal { sratio A P A B } { sratio A Q A C } }
