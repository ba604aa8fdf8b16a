point A
pratio M A A M div { 1 } { 2 }
prove { collinear A M A }
