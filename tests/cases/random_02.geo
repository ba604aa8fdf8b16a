point N0
point N1
pratio N2 N0 N0 N0 div { -7 } { 3 }
point N3
pratio N4 N3 N2 N2 div { -7 } { 6 }
pratio N5 N2 N0 N4 div { -3 } { 9 }
pratio N6 N5 N5 N0 div { 5 } { 5 }
prove { collinear N3 N1 N3 }
