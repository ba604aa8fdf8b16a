% The diagonals of a parallelogram bisect one another (classical).
point A
point B
point C
pratio D A B C div { 1 } { 1 }
pratio M A A C div { 1 } { 2 }
prove { collinear B M D }
