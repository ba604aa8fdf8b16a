point A
point B
point C
pratio X1 A A B div { 1 } { 2 }
pratio X2 A A B div { 1 } { 2 }
pratio X3 A A B div { 1 } { 2 }
pratio X4 A A B div { 1 } { 2 }
pratio X5 A A B div { 1 } { 2 }
pratio X6 A A B div { 1 } { 2 }
pratio X7 A A B div { 1 } { 2 }
pratio X8 A A B div { 1 } { 2 }
pratio X9 A A B div { 1 } { 2 }
pratio X10 A A B div { 1 } { 2 }
pratio X11 A A B div { 1 } { 2 }
pratio X12 A A B div { 1 } { 2 }
pratio X13 A A B div { 1 } { 2 }
pratio X14 A A B div { 1 } { 2 }
prove { collinear A X14 B }
