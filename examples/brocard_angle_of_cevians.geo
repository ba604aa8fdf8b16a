% D, E and F divide the sides BC, CA, AB of a triangle in one ratio. The lines AD, BE, CF are the sides of a triangle
% with the same Brocard angle (19th century): the sum of the squares of its sides is to its area as in ABC. BE is laid
% off at D as DX; AX has the length of CF.
point A
point B
point C
param r
lratio D B C r
lratio E C A r
translate X B E D
prove { equal { mult { signed_area3 A B C }
                     { sum { pythagoras_difference3 A D A }
                           { sum { pythagoras_difference3 D X D } { pythagoras_difference3 A X A } } } }
              { mult { signed_area3 A D X }
                     { sum { pythagoras_difference3 A B A }
                           { sum { pythagoras_difference3 B C B } { pythagoras_difference3 C A C } } } } }
