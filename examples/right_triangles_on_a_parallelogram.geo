% On the sides AB and CB of a parallelogram ABCD isosceles triangles stand with right angles at A and C. Their tops E
% and F make with D an isosceles triangle with a right angle at D (classical). Here the right angle.
point A
point B
point C
translate D B A C
tratio E A B 1
tratio F C B -1
prove { perpendicular D E D F }
