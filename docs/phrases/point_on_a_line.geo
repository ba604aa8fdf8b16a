% proved: a triangle with its third corner on the line of the two others has no area
point A
point B
online P A B
prove { equal { signed_area3 A B P } { 0 } }
