% The fourth harmonic point of three points of a line does not depend on the quadrangle that makes it (Pappus of
% Alexandria; von Staudt, 1847). Here it is made from A, B and C twice.
point A
point B
online C A B
point P
online Q A P
inter R C Q B P
inter S B Q A R
inter D P S A B
point P1
online Q1 A P1
inter R1 C Q1 B P1
inter S1 B Q1 A R1
prove { collinear P1 S1 D }
