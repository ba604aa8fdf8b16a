% The first Brocard triangle XYZ has the tops of the isosceles triangles that stand inside on the sides with the
% Brocard angle at the base. It is similar to ABC, in the other sense of turning (Henri Brocard, 1881): the angle YXZ
% is the opposite of BAC.
point A
point B
point C
midpoint K B C
midpoint L C A
midpoint M A B
tratio X K C div { mult { 8 } { signed_area3 A B C } }
                 { sum { sum { pythagoras_difference3 A B A } { pythagoras_difference3 B C B } }
                       { pythagoras_difference3 C A C } }
tratio Y L A div { mult { 8 } { signed_area3 A B C } }
                 { sum { sum { pythagoras_difference3 A B A } { pythagoras_difference3 B C B } }
                       { pythagoras_difference3 C A C } }
tratio Z M B div { mult { 8 } { signed_area3 A B C } }
                 { sum { sum { pythagoras_difference3 A B A } { pythagoras_difference3 B C B } }
                       { pythagoras_difference3 C A C } }
prove { equal { mult { signed_area3 Y X Z } { pythagoras_difference3 B A C } }
              { mult { neg { signed_area3 B A C } } { pythagoras_difference3 Y X Z } } }
