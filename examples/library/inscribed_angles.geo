% Angles on one chord of a circle (Euclid, Elements III.21): the angles at C and D over AB are equal. Their tangents
% are quotients of an area and a Pythagoras difference.
point O
point A
oncircle B O A
oncircle C O A
oncircle D O A
prove { equal { mult { signed_area3 A B C } { pythagoras_difference3 A D B } }
              { mult { signed_area3 A B D } { pythagoras_difference3 A C B } } }
