point A
point B
point C
pratio D A A B div { 3 } { 7 }
pratio E A A C div { 3 } { 7 }
pratio F D B C div { 3 } { 7 }
prove { collinear F E A }
