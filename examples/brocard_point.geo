% The lines from A, B and C that make one angle with AB, BC and CA meet in one point where its tangent is 4 S / (a^2 +
% b^2 + c^2) (August Leopold Crelle, 1816; Henri Brocard, 1875).
point A
point B
point C
tratio U A B div { mult { 8 } { signed_area3 A B C } }
                 { sum { sum { pythagoras_difference3 A B A } { pythagoras_difference3 B C B } }
                       { pythagoras_difference3 C A C } }
translate U1 A B U
tratio V B C div { mult { 8 } { signed_area3 A B C } }
                 { sum { sum { pythagoras_difference3 A B A } { pythagoras_difference3 B C B } }
                       { pythagoras_difference3 C A C } }
translate V1 B C V
tratio W C A div { mult { 8 } { signed_area3 A B C } }
                 { sum { sum { pythagoras_difference3 A B A } { pythagoras_difference3 B C B } }
                       { pythagoras_difference3 C A C } }
translate W1 C A W
inter X A U1 B V1
prove { collinear C W1 X }
