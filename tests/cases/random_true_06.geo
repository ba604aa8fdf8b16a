point N0
point N1
pratio N2 N0 N0 N1 div { 7 } { 4 }
pratio N3 N2 N1 N0 div { 3 } { 4 }
pratio N4 N3 N3 N1 div { -1 } { 2 }
pratio N5 N0 N3 N4 div { 4 } { 8 }
pratio N6 N3 N3 N5 div { -4 } { 1 }
pratio N7 N2 N0 N4 div { 3 } { 1 }
pratio N8 N1 N3 N6 div { 7 } { 2 }
pratio N9 N7 N7 N0 div { 0 } { 4 }
pratio N10 N0 N0 N1 div { 5 } { 7 }
pratio N11 N2 N2 N6 div { -6 } { 6 }
pratio N12 N8 N8 N3 div { -4 } { 3 }
pratio N13 N0 N0 N7 div { 0 } { 4 }
pratio N14 N9 N2 N4 div { -6 } { 6 }
prove { collinear N9 N10 N11 }
