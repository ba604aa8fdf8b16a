% The distances of a point P of the base BC of an isosceles triangle from the legs add up to the altitude from B
% (classical). E is the foot of P on AB and F that on AC. The reflection E1 of E in the base is on the line FP, with
% PE1 = PE; so FE1 is as long as the altitude BH.
point B
point C
midpoint M B C
param h
tratio A M C h
online P B C
foot E P A B
foot F P A C
reflect E1 E B C
foot H B A C
prove { same_length F E1 B H }
