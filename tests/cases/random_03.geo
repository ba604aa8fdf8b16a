point N0
point N1
pratio N2 N0 N1 N0 div { 9 } { 2 }
pratio N3 N2 N2 N2 div { -3 } { 4 }
pratio N4 N1 N0 N2 div { 2 } { 5 }
pratio N5 N0 N1 N2 div { 4 } { 5 }
point N6
pratio N7 N2 N3 N5 div { 4 } { 4 }
pratio N8 N7 N1 N3 div { 2 } { 1 }
pratio N9 N0 N5 N6 div { 7 } { 9 }
point N10
pratio N11 N4 N4 N4 div { -1 } { 6 }
prove { collinear N8 N7 N10 }
