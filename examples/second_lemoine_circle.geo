% The second Lemoine circle (Emile Lemoine, 1873): the antiparallels to the sides through the Lemoine point K meet the
% sides in six points that are equally far from it, at the product of the sides over the sum of their squares. Here
% the point Y of BC on the antiparallel to CA, which is parallel to the line of the feet D and F of altitudes. DA and
% DC are a and c times DB, so the squares of BC, CA and AB are (1-c)^2, a^2+c^2 and 1+a^2, with the sum s = 2
% (1+a^2+c^2-c); K is (1+c)(a^2+c) / s DB and (1-c)^2 / s DA from D.
point D
point B
param a
param c
tratio A D B a
lratio C D B c
lratio K0 D B div { mult { sum { 1 } { c } } { sum { mult { a } { a } } { c } } }
                  { mult { 2 } { sub { sum { 1 } { sum { mult { a } { a } } { mult { c } { c } } } } { c } } }
pratio K K0 D A div { mult { sub { 1 } { c } } { sub { 1 } { c } } }
                    { mult { 2 } { sub { sum { 1 } { sum { mult { a } { a } } { mult { c } { c } } } } { c } } }
foot F C A B
translate Y1 D F K
inter Y K Y1 B C
prove { equal { mult { pythagoras_difference3 K Y K }
                     { mult { mult { 2 }
                                   { sub { sum { 1 } { sum { mult { a } { a } } { mult { c } { c } } } } { c } } }
                            { mult { 2 }
                                   { sub { sum { 1 } { sum { mult { a } { a } } { mult { c } { c } } } } { c } } } } }
              { mult { pythagoras_difference3 D B D }
                     { mult { mult { sub { 1 } { c } } { sub { 1 } { c } } }
                            { mult { sum { mult { a } { a } } { mult { c } { c } } }
                                   { sum { 1 } { mult { a } { a } } } } } } }
