point N0
point N1
pratio N2 N0 N0 N0 div { 8 } { 8 }
pratio N3 N1 N1 N2 div { -5 } { 2 }
pratio N4 N1 N1 N0 div { -2 } { 4 }
pratio N5 N4 N2 N0 div { -8 } { 8 }
pratio N6 N0 N0 N4 div { -8 } { 2 }
prove { collinear N4 N2 N2 }
