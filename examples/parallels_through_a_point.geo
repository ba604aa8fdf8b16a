% Through a point P of a triangle a parallel to each side is drawn. The three pieces between the other two sides, each
% divided by the side, add up to 2 (classical).
point A
point B
point C
point P
line a B C
line b C A
line c A B
parallel p P a
parallel q P b
parallel r P c
intersec X p c
intersec Y p b
intersec Z q a
intersec U q c
intersec V r b
intersec W r a
prove { equal { sum { sum { sratio X Y B C } { sratio Z U C A } } { sratio V W A B } } { 2 } }
