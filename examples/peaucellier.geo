% Peaucellier's linkage (Charles-Nicolas Peaucellier, 1864): A and C have the same distance from O, and P and Q
% complete a rhombus APCQ, with P on the axis of A and C. The vectors OP and OQ have the product OA^2 - AP^2, so P and
% Q are inverse to one another.
point O
point A
point U
reflect C A O U
online P O U
reflect Q P A C
prove { equal { pythagoras_difference3 P O Q }
              { sub { pythagoras_difference3 O A O } { pythagoras_difference3 A P A } } }
