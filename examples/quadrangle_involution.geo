% The three pairs of opposite sides of a quadrangle PQRS meet a line in three pairs A A1, B B1, C C1 of an involution:
% AB1 BC1 CA1 = BA1 CB1 AC1 (Pappus of Alexandria, VII.130; Girard Desargues, 1639).
point A
point B
point P
online C A B
online Q A P
online R B P
online S C P
inter A1 A B R S
inter B1 A B Q S
inter C1 A B Q R
prove { equal { mult { mult { sratio A B1 A B } { sratio B C1 A B } } { sratio C A1 A B } }
              { mult { mult { sratio B A1 A B } { sratio C B1 A B } } { sratio A C1 A B } } }
