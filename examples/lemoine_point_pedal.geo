% The Lemoine point is the centroid of the triangle of its feet on the sides (Emile Lemoine, 1873): for each point K
% of the symmedian CD the line from K to the midpoint M of its feet on CA and CB is perpendicular to AB. The symmedian
% divides AB in the ratio of the squares of the other sides.
point A
point B
point C
lratio D A B div { pythagoras_difference3 C A C }
                 { sum { pythagoras_difference3 C A C } { pythagoras_difference3 C B C } }
online K C D
foot X K B C
foot Y K C A
midpoint M X Y
prove { perpendicular K M A B }
