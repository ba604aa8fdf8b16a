point A
point B
pratio M A A B div { 10 } { 2 }
prove { collinear A M B }
