% The butterfly theorem (William George Horner, 1815): M is the midpoint of a chord, which is perpendicular to OM;
% AB and CD are two more chords through M. Then AD and BC meet the first chord at equal distances from M: the point
% of BC is the reflection in M of that of AD.
point M
point A
point C
param r
lratio B M A r
lratio D M C div { mult { r } { pythagoras_difference3 M A M } } { pythagoras_difference3 M C M } % MA MB = MC MD
circumcenter O A B C
tratio T M O 1 % the first chord is on MT
inter X A D M T
symmetric Y X M
prove { collinear B C Y }
