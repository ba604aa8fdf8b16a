point A
point B
point C
pratio D A B C div { 2 } { 1 }
pratio E A A D div { 1 } { 2 }
prove { collinear A D E }
