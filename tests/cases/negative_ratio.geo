point A
point B
pratio M A A B div { -7 } { 9 }
prove { collinear M A B }
