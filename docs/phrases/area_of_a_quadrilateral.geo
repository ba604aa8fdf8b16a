% proved: the midpoints of the sides of a quadrilateral have half of its area
point A
point B
point C
point D
midpoint K A B
midpoint L B C
midpoint M C D
midpoint N D A
prove { equal { mult { 2 } { sum { signed_area3 K L M } { signed_area3 K M N } } } { sum { signed_area3 A B C } { signed_area3 A C D } } }
