point A
point B
point C
pratio X1 A A B div { 2 } { 4 }
pratio X2 X1 A B div { 3 } { 7 }
pratio X3 X2 A B div { 4 } { 1 }
pratio X4 X3 A B div { 5 } { 4 }
pratio X5 X4 A B div { 6 } { 7 }
pratio X6 X5 A B div { 7 } { 1 }
pratio X7 X6 A B div { 8 } { 4 }
pratio X8 X7 A B div { 9 } { 7 }
pratio X9 X8 A B div { 1 } { 1 }
pratio X10 X9 A B div { 2 } { 4 }
pratio X11 X10 A B div { 3 } { 7 }
pratio X12 X11 A B div { 4 } { 1 }
pratio X13 X12 A B div { 5 } { 4 }
prove { collinear A X13 B }
