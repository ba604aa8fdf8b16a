% The perpendiculars to AB at B and to AC at C meet at X, opposite to A on the circumcircle. The midpoint of BC is
% that of X and the orthocenter (classical).
point A
point B
point C
line b A C
line c A B
perp p B c
perp q C b
intersec X p q
perp h B b
perp k C c
intersec H h k
midpoint M B C
prove { midpoint M H X }
