% A line through the centre M of a parallelogram ABCD meets AB at E and CD at F. It halves the parallelogram
% (classical): AEFD has half of the area.
point A
point B
point D
translate C A B D
midpoint M A C
online E A B
inter F E M C D
prove { equal { mult { 2 } { sum { signed_area3 A E F } { signed_area3 A F D } } }
              { sum { signed_area3 A B C } { signed_area3 A C D } } }
