point N0
point N1
pratio N2 N0 N1 N0 div { -5 } { 9 }
point N3
pratio N4 N3 N3 N1 div { -6 } { 6 }
pratio N5 N0 N0 N0 div { -6 } { 1 }
pratio N6 N4 N4 N1 div { -4 } { 4 }
prove { collinear N1 N5 N4 }
