% Hesse's theorem (Otto Hesse, 1840): where the ends of two diagonals AA1 and BB1 of a complete quadrilateral are
% conjugate in a circle, those of the third one, CC1, are so too. A1 is on the polar US of A, and B1 on the polar VT
% of B.
point O
point R
point A
inverse U A O R
tratio S U O 1
online A1 U S
point B
inverse V B O R
tratio T V O 1
online B1 V T
inter C A B A1 B1
inter C1 A B1 A1 B
prove { equal { pythagoras_difference3 C O C1 } { pythagoras_difference3 O R O } }
