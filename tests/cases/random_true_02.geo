point N0
point N1
pratio N2 N0 N0 N1 div { -1 } { 2 }
pratio N3 N0 N1 N0 div { 0 } { 1 }
pratio N4 N0 N1 N0 div { -2 } { 2 }
pratio N5 N2 N3 N2 div { 6 } { 1 }
pratio N6 N2 N5 N2 div { -5 } { 7 }
pratio N7 N3 N2 N0 div { 0 } { 8 }
pratio N8 N6 N6 N1 div { -4 } { 6 }
point N9
pratio N10 N7 N7 N7 div { 8 } { 9 }
prove { collinear N10 N8 N7 }
