point A % first
point B
pratio M A A B div { 1 } { 2 }
prove { collinear A M B }
