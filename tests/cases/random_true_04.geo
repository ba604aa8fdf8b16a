point N0
point N1
pratio N2 N0 N1 N1 div { -4 } { 1 }
pratio N3 N0 N0 N0 div { -9 } { 7 }
pratio N4 N3 N3 N3 div { -2 } { 9 }
pratio N5 N0 N0 N3 div { 5 } { 1 }
pratio N6 N5 N1 N1 div { 3 } { 6 }
prove { collinear N6 N5 N3 }
