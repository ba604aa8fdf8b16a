% A common tangent and a parallel (International Mathematical Olympiad 2000, problem 1): two circles meet at M and N;
% AB is a common tangent, and the line through M parallel to AB meets the circles again at C and D. CA and DB meet at
% E, AN and CD at P, BN and CD at Q. Then EP = EQ. The figure begins with A, B and M. The line MN halves AB at K, with
% KM KN = KA^2; with the foot H of M on AB, MC is twice HA and MD is twice HB. Here: E and the midpoint R of PQ are on
% one perpendicular to AB, so to PQ.
point A
point B
point M
midpoint K A B
lratio N K M div { pythagoras_difference3 K A K } { pythagoras_difference3 K M K }
foot H M A B
pratio C M H A 2
pratio D M H B 2
inter E C A D B
inter P A N C D
inter Q B N C D
midpoint R P Q
prove { perpendicular E R A B }
