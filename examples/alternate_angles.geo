% Alternate angles (Euclid, Elements I.29): a line meets two parallels at A and B, and the alternate angles are equal.
% C and D are points of the parallels on different sides of AB, and the angles CAB and DBA have equal tangents and the
% same turn. BD is r times AC, turned round.
point A
point B
point C
param r
pratio D B C A r
prove { equal { mult { signed_area3 C A B } { pythagoras_difference3 D B A } }
              { mult { signed_area3 D B A } { pythagoras_difference3 C A B } } }
