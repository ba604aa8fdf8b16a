% The distance from a corner of a triangle to the orthocenter is twice that from the circumcenter to the opposite side.
point A
point B
point C
circumcenter O A B C
orthocenter H A B C
midpoint M B C
prove { equal { pythagoras_difference3 A H A } { mult { 4 } { pythagoras_difference3 O M O } } }
