% The circumcenter of a triangle is not that of the triangle of the feet of its altitudes, but for equilateral ones.
% False. Counterexample: A = (0, 0), B = (4, 0), C = (1, 3): O = (2, 1), D = (2, 2), E = (2/5, 6/5), with OD^2 = 1 and
% OE^2 = 13/5.
point A
point B
point C
circumcenter O A B C
foot D A B C
foot E B C A
prove { same_length O D O E }
