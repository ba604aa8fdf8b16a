point N0
point N1
pratio N2 N0 N1 N1 div { 2 } { 8 }
pratio N3 N0 N0 N0 div { -8 } { 2 }
pratio N4 N2 N1 N0 div { 6 } { 1 }
pratio N5 N1 N1 N0 div { -5 } { 2 }
pratio N6 N3 N5 N0 div { 5 } { 3 }
pratio N7 N6 N6 N3 div { 1 } { 8 }
pratio N8 N2 N2 N2 div { 2 } { 1 }
pratio N9 N5 N8 N4 div { -7 } { 7 }
pratio N10 N9 N9 N8 div { -4 } { 4 }
pratio N11 N1 N8 N8 div { -4 } { 1 }
pratio N12 N6 N10 N7 div { -8 } { 3 }
point N13
pratio N14 N4 N4 N10 div { -2 } { 8 }
pratio N15 N5 N5 N14 div { 3 } { 4 }
prove { collinear N15 N15 N15 }
