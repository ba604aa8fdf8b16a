% The symmedian from A bisects the segments between the sides that are antiparallel to BC (Emile Lemoine, 1873): the
% segment of the feet E, F of two altitudes; D divides BC in the ratio of the squares of the sides.
point A
point B
point C
foot E B C A
foot F C A B
midpoint M E F
lratio D B C div { pythagoras_difference3 A B A }
                 { sum { pythagoras_difference3 A B A } { pythagoras_difference3 A C A } }
prove { collinear A M D }
