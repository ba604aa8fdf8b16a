% The angle between a chord AB and the tangent at A is equal to the angle at a point C of the circle over the chord
% (Euclid, Elements III.32).
point O
point A
param r
tratio T A O r
oncircle B O A
oncircle C O A
prove { equal { mult { signed_area3 A T B } { pythagoras_difference3 A C B } }
              { mult { signed_area3 C A B } { pythagoras_difference3 T A B } } }
