point A
point B
pratio X1 A B A div { -1 } { 2 }
pratio X2 X1 B A div { -2 } { 3 }
pratio X3 X2 X1 A div { -3 } { 4 }
pratio X4 X3 X2 X1 div { -4 } { 5 }
pratio X5 X4 X3 X2 div { -5 } { 6 }
pratio X6 X5 X4 X3 div { -6 } { 7 }
pratio X7 X6 X5 X4 div { -7 } { 8 }
pratio X8 X7 X6 X5 div { -8 } { 9 }
pratio X9 X8 X7 X6 div { -9 } { 1 }
pratio X10 X9 X8 X7 div { 1 } { 2 }
pratio X11 X10 X9 X8 div { 2 } { 3 }
pratio X12 X11 X10 X9 div { 3 } { 4 }
pratio X13 X12 X11 X10 div { 4 } { 5 }
pratio X14 X13 X12 X11 div { 5 } { 6 }
prove { collinear X12 X13 X14 }
