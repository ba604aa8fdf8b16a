% Haga's theorem (Kazuo Haga, 20th century): fold a square of paper so that the corner B comes to the midpoint M of
% the opposite side CD. The edge BA then crosses the side AD at two thirds of it from D. The crease is the
% perpendicular bisector of BM and meets BC at N; the edge goes through M, perpendicular to MN.
point A
point B
tratio D A B 1
translate C A B D
midpoint M C D
med f B M
line s B C
intersec N f s
line n M N
perp e M n
line t A D
intersec X e t
prove { equal { mult { 3 } { sratio D X D A } } { 2 } }
