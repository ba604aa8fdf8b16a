% Hesse's theorem (Otto Hesse, 1840): where the ends of two diagonals AA1 and BB1 of a complete quadrilateral are
% conjugate in a circle, those of the third one, CC1, are so too. Two points are conjugate where their vectors from
% the centre O have the square of the radius as their product; here it is that of A and A1, and B1 has this product
% with B.
point O
point A
point A1
point B
param s
lratio V O B div { pythagoras_difference3 A O A1 } { pythagoras_difference3 B O B }
tratio W O B s
translate B1 O V W
inter C A B A1 B1
inter C1 A B1 A1 B
prove { equal { pythagoras_difference3 C O C1 } { pythagoras_difference3 A O A1 } }
