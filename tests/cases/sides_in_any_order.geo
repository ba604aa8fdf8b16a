point A
point B
pratio M A A B div { 1 } { 2 }
prove { collinear B M A }
