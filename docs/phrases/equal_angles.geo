% proved: angles over one chord are equal
point O
point A
oncircle B O A
oncircle C O A
oncircle D O A
prove { equal { mult { signed_area3 A C B } { pythagoras_difference3 A D B } } { mult { signed_area3 A D B } { pythagoras_difference3 A C B } } }
