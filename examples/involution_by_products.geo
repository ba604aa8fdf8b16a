% Three pairs of points A A1, B B1, C C1 of a line for which OA OA1 = OB OB1 = OC OC1 with one point O of it are pairs
% of an involution: AB1 BC1 CA1 = BA1 CB1 AC1, with signs (Girard Desargues, 1639). OU is the unit, OA, OB and OC are
% a, b and c, and the product is k.
point O
point U
param a
param b
param c
param k
lratio A O U a
lratio B O U b
lratio C O U c
lratio A1 O U div { k } { a }
lratio B1 O U div { k } { b }
lratio C1 O U div { k } { c }
prove { equal { mult { mult { sratio A B1 O U } { sratio B C1 O U } } { sratio C A1 O U } }
              { mult { mult { sratio B A1 O U } { sratio C B1 O U } } { sratio A C1 O U } } }
