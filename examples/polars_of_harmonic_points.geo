% The polars of four harmonic points A, B, C, D are harmonic lines (19th century): a parallel to the polar of D meets
% those of A, B and C at K, L and M, and M is the midpoint of KL.
point O
point R
point A
point B
param r
lratio C A B div { r } { sum { r } { 1 } }
lratio D A B div { r } { sub { r } { 1 } }
inverse A1 A O R
inverse B1 B O R
inverse C1 C O R
tratio A2 A1 O 1 % A1 A2 is the polar of A
tratio B2 B1 O 1
tratio C2 C1 O 1
tratio D2 O D 1 % the polar of D is parallel to O D2
online K A1 A2
translate K1 O D2 K
inter L K K1 B1 B2
inter M K K1 C1 C2
prove { midpoint M K L }
