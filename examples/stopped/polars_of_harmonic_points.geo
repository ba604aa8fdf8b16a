% The polars of four harmonic points A, B, C, D meet any line in four harmonic points (19th century).
point O
point R
point A
point B
param r
lratio C A B div { r } { sum { r } { 1 } }
lratio D A B div { r } { sub { r } { 1 } }
inverse A1 A O R
inverse B1 B O R
inverse C1 C O R
inverse D1 D O R
tratio A2 A1 O 1
tratio B2 B1 O 1
tratio C2 C1 O 1
tratio D2 D1 O 1
online K A1 A2
online L B1 B2
inter M K L C1 C2
inter N K L D1 D2
prove { harmonic K L M N }
