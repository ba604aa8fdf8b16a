point A
point B
point C
pratio D A C B div { 4 } { 2 }
pratio E D D A div { -6 } { 9 }
prove { collinear E D A }
