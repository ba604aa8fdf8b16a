% Where two lines meet at P, and the parts PA, PB of one have the same product as the parts PC, PD of the other, the
% four ends are on one circle (the converse of Euclid, Elements III.35).
point P
point A
point C
param r
lratio B P A r
lratio D P C div { mult { r } { pythagoras_difference3 P A P } } { pythagoras_difference3 P C P }
prove { concyclic A B C D }
