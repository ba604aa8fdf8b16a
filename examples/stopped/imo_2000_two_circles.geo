% A common tangent and a parallel (International Mathematical Olympiad 2000, problem 1): two circles meet at M and N;
% AB is a common tangent, and the line through M parallel to AB meets the circles again at C and D. CA and DB meet at
% E, AN and CD at P, BN and CD at Q. Then EP = EQ. The figure begins with A, B and M; the centres are on the
% perpendiculars to AB at A and B.
point A
point B
point M
line t A B
perp a A t
perp b B t
med c A M
med d B M
intersec O a c
intersec L b d
reflect C M A O
reflect D M B L
reflect N M O L
inter E C A D B
inter P A N C D
inter Q B N C D
prove { same_length E P E Q }
