point N0
point N1
pratio N2 N0 N0 N1 div { -5 } { 9 }
pratio N3 N0 N1 N0 div { -1 } { 5 }
pratio N4 N1 N1 N2 div { 8 } { 9 }
pratio N5 N2 N2 N4 div { 4 } { 1 }
pratio N6 N4 N4 N4 div { 9 } { 4 }
point N7
prove { collinear N3 N2 N3 }
