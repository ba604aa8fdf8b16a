point A
point B
point C
pratio D A B C div { 0 } { 1 }
prove { collinear A D B }
