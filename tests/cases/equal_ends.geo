point A
point B
point C
pratio D A B B div { 5 } { 3 }
prove { collinear A D C }
