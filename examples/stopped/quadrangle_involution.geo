% The three pairs of opposite sides of a quadrangle PQRS meet a line in three pairs A A1, B B1, C C1 of an involution:
% AB1 BC1 CA1 = BA1 CB1 AC1 (Pappus of Alexandria, VII.130; Girard Desargues, 1639).
point P
point Q
point R
point S
point U
point V
inter A P Q U V
inter A1 R S U V
inter B P R U V
inter B1 Q S U V
inter C P S U V
inter C1 Q R U V
prove { equal { mult { mult { sratio A B1 U V } { sratio B C1 U V } } { sratio C A1 U V } }
              { mult { mult { sratio B A1 U V } { sratio C B1 U V } } { sratio A C1 U V } } }
