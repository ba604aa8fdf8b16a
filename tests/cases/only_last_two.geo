point A
point B
pratio M A A B div { 1 } { 2 }
pratio N M A B div { 2 } { 3 }
prove { collinear M N B }
