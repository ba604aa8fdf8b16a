% The altitudes of a triangle bisect the angles of the triangle of their feet (classical): the angles of DE and DF
% with the altitude AD have opposite tangents.
point A
point B
point C
foot D A B C
foot E B C A
foot F C A B
prove { equal { mult { signed_area3 A D E } { pythagoras_difference3 A D F } }
              { mult { neg { signed_area3 A D F } } { pythagoras_difference3 A D E } } }
