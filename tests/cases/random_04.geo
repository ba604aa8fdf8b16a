point N0
point N1
pratio N2 N1 N1 N1 div { 4 } { 4 }
pratio N3 N2 N2 N2 div { 9 } { 3 }
pratio N4 N0 N0 N2 div { 7 } { 9 }
point N5
pratio N6 N0 N0 N4 div { -5 } { 2 }
pratio N7 N1 N1 N5 div { -3 } { 8 }
pratio N8 N6 N6 N4 div { 6 } { 7 }
pratio N9 N1 N0 N6 div { 3 } { 2 }
pratio N10 N7 N2 N9 div { -3 } { 2 }
prove { collinear N10 N5 N8 }
