% The Lemoine point K has the same power in the three circles of Apollonius of a triangle (19th century): X and Y are
% where the tangents of the circumcircle at A and B meet the opposite sides, the centres of such circles through A and
% B. D is the foot of the altitude from A, DA and DC are a and c times DB, so the squares of BC, CA and AB are
% (1-c)^2, a^2+c^2 and 1+a^2; they are the weights of K, and X and Y divide the sides outside in the ratios of these
% squares.
point D
point B
param a
param c
tratio A D B a
lratio C D B c
weights K A B C div { sum { mult { a } { a } } { mult { c } { c } } }
                    { mult { 2 } { sub { sum { 1 } { sum { mult { a } { a } } { mult { c } { c } } } } { c } } }
                div { sum { 1 } { mult { a } { a } } }
                    { mult { 2 } { sub { sum { 1 } { sum { mult { a } { a } } { mult { c } { c } } } } { c } } }
lratio X B C div { sum { 1 } { mult { a } { a } } } { sub { 1 } { mult { c } { c } } }
lratio Y C A div { mult { sub { 1 } { c } } { sub { 1 } { c } } }
                 { sub { mult { sub { 1 } { c } } { sub { 1 } { c } } } { sum { 1 } { mult { a } { a } } } }
prove { equal { sub { pythagoras_difference3 X K X } { pythagoras_difference3 X A X } }
              { sub { pythagoras_difference3 Y K Y } { pythagoras_difference3 Y B Y } } }
