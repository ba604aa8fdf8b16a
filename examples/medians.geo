% The medians of a triangle meet at two thirds of their length (Archimedes).
point A
point B
point C
pratio D B B C div { 1 } { 2 }
pratio G A A D div { 2 } { 3 }
pratio E A A C div { 1 } { 2 }
prove { collinear B G E }
