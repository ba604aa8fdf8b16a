% Reflections in two parallel lines make a translation by twice their distance (classical). Both lines are
% perpendicular to AF, through A and F.
point A
point F
point P
tratio B A F 1
tratio D F A 1
reflect Q P A B
reflect R Q F D
prove { equal { sratio P R A F } { 2 } }
