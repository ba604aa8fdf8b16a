% The perpendiculars from the corners of a triangle to the sides of its first Brocard triangle XYZ meet in one point T
% of the circumcircle (Gaston Tarry, 1884). X, Y, Z are the tops of isosceles triangles on the sides with the Brocard
% angle at the base.
point A
point B
point C
midpoint K B C
midpoint L C A
midpoint M A B
tratio X K C div { mult { 8 } { signed_area3 A B C } }
                 { sum { sum { pythagoras_difference3 A B A } { pythagoras_difference3 B C B } }
                       { pythagoras_difference3 C A C } }
tratio Y L A div { mult { 8 } { signed_area3 A B C } }
                 { sum { sum { pythagoras_difference3 A B A } { pythagoras_difference3 B C B } }
                       { pythagoras_difference3 C A C } }
tratio Z M B div { mult { 8 } { signed_area3 A B C } }
                 { sum { sum { pythagoras_difference3 A B A } { pythagoras_difference3 B C B } }
                       { pythagoras_difference3 C A C } }
tratio A0 Y Z 1
translate A1 Y A0 A
tratio B0 X Z 1
translate B1 X B0 B
inter T A A1 B B1
prove { concyclic A B C T }
