point N0
point N1
pratio N2 N0 N0 N0 div { -4 } { 4 }
pratio N3 N0 N2 N2 div { -5 } { 1 }
pratio N4 N3 N3 N2 div { -8 } { 9 }
pratio N5 N0 N3 N1 div { -4 } { 7 }
pratio N6 N2 N1 N2 div { 7 } { 3 }
pratio N7 N5 N5 N1 div { 7 } { 9 }
pratio N8 N1 N4 N1 div { 1 } { 2 }
pratio N9 N2 N2 N1 div { -8 } { 5 }
prove { collinear N5 N6 N6 }
