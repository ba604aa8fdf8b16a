point A
point B
pratio D A A A div { 9 } { 9 }
pratio E D D D div { -1 } { 2 }
prove { collinear E A B }
