point A
point B
point C
pratio D A A A div { -9 } { 1 }
prove { collinear D A C }
