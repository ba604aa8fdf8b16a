point P
point A
point B
point C
pratio P1 A P A div { 1 } { 1 }
pratio P2 B P1 B div { 1 } { 1 }
pratio P3 C P2 C div { 1 } { 1 }
pratio P4 A P3 A div { 1 } { 1 }
pratio P5 B P4 B div { 1 } { 1 }
pratio P6 C P5 C div { 1 } { 1 }
prove { collinear P P6 A }
