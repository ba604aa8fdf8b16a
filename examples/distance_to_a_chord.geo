% The distance of a point X of a circle to a chord is the mean proportional of its distances to the tangents at its
% ends (Pappus of Alexandria, 4th century). Distances are areas over lengths; the pieces AS and BT of the tangents are
% as long as the radius.
point O
point A
oncircle B O A
oncircle X O A
tratio S A O 1
tratio T B O 1
prove { equal { mult { mult { signed_area3 X A B } { signed_area3 X A B } } { pythagoras_difference3 O A O } }
              { mult { mult { signed_area3 X A S } { signed_area3 X B T } } { pythagoras_difference3 A B A } } }
