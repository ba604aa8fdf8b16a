point N0
point N1
pratio N2 N0 N0 N1 div { -9 } { 4 }
pratio N3 N1 N0 N0 div { -6 } { 6 }
pratio N4 N0 N0 N3 div { -5 } { 7 }
prove { collinear N1 N3 N3 }
