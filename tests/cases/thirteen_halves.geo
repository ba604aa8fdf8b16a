point A
point B
point C
pratio X1 B B A div { 1 } { 2 }
pratio X2 X1 X1 A div { 1 } { 2 }
pratio X3 X2 X2 A div { 1 } { 2 }
pratio X4 X3 X3 A div { 1 } { 2 }
pratio X5 X4 X4 A div { 1 } { 2 }
pratio X6 X5 X5 A div { 1 } { 2 }
pratio X7 X6 X6 A div { 1 } { 2 }
pratio X8 X7 X7 A div { 1 } { 2 }
pratio X9 X8 X8 A div { 1 } { 2 }
pratio X10 X9 X9 A div { 1 } { 2 }
pratio X11 X10 X10 A div { 1 } { 2 }
pratio X12 X11 X11 A div { 1 } { 2 }
pratio X13 X12 X12 A div { 1 } { 2 }
prove { collinear A X13 B }
