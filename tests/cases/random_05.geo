point N0
point N1
pratio N2 N1 N0 N0 div { 8 } { 1 }
point N3
pratio N4 N2 N2 N2 div { 5 } { 1 }
pratio N5 N4 N4 N4 div { 8 } { 7 }
pratio N6 N4 N2 N2 div { -2 } { 9 }
prove { collinear N5 N5 N5 }
