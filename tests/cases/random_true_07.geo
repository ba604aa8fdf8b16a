point N0
point N1
pratio N2 N1 N0 N1 div { -6 } { 2 }
pratio N3 N0 N0 N0 div { -3 } { 8 }
pratio N4 N3 N3 N1 div { 6 } { 9 }
pratio N5 N4 N1 N2 div { 7 } { 6 }
pratio N6 N1 N1 N0 div { -2 } { 9 }
pratio N7 N2 N2 N5 div { -9 } { 6 }
pratio N8 N5 N5 N1 div { -4 } { 4 }
pratio N9 N3 N8 N0 div { -7 } { 9 }
prove { collinear N8 N8 N5 }
