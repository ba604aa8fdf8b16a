point N0
point N1
pratio N2 N1 N1 N0 div { -3 } { 7 }
pratio N3 N0 N2 N0 div { 4 } { 7 }
point N4
pratio N5 N3 N3 N1 div { 1 } { 8 }
pratio N6 N3 N3 N4 div { 8 } { 1 }
pratio N7 N6 N4 N1 div { -1 } { 3 }
point N8
point N9
point N10
pratio N11 N0 N0 N0 div { 7 } { 4 }
pratio N12 N6 N6 N3 div { 2 } { 5 }
pratio N13 N10 N5 N5 div { 4 } { 1 }
prove { collinear N12 N9 N10 }
