% The quadrangular set (Karl von Staudt, 1847): the six sides of a quadrangle PQRS meet a line in six points: PQ at A,
% PR at B, PS at C, QR at D, QS at E and RS at F. Of a second quadrangle five sides pass through A, B, C, D and E;
% then the sixth passes through F.
point A
point B
online C A B
online D A B
online E A B
point P
online Q P A
inter R P B Q D
inter S P C Q E
inter F R S A B
point P1
online Q1 P1 A
inter R1 P1 B Q1 D
inter S1 P1 C Q1 E
prove { collinear R1 S1 F }
