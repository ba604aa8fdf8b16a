point A
point B
pratio M A A B div { 1 } { 0 }
prove { collinear A M B }
