% Thomsen's theorem (Gerhard Thomsen, 1930): from a point of a side of a triangle go parallel to the next sides in
% turn, from side to side. After six steps the walk is back.
point A
point B
point C
line a B C
line b C A
line c A B
online P A B
parallel p P b
intersec Q p a
parallel q Q c
intersec R q b
parallel r R a
intersec S r c
parallel s S b
intersec T s a
parallel t T c
intersec U t b
prove { parallel U P B C }
