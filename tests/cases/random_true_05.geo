point N0
point N1
pratio N2 N1 N1 N1 div { 9 } { 3 }
pratio N3 N0 N0 N0 div { -9 } { 2 }
pratio N4 N1 N3 N0 div { 4 } { 8 }
prove { collinear N1 N1 N3 }
