point A
point B
point C
pratio D C A B div { 0 } { 7 }
prove { collinear A D B }
