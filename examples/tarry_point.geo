% The perpendiculars from the corners of a triangle to the sides of its first Brocard triangle XYZ meet in one point
% of the circumcircle (Gaston Tarry, 1884): the perpendicular from A to YZ meets the circle again at T, and BT is
% perpendicular to ZX. X, Y, Z have as weights the squares of BC, AB, CA; of AB, CA, BC; and of CA, BC, AB. D is the
% foot of the altitude from A, DA and DC are a and c times DB, so the squares of BC, CA and AB are (1-c)^2, a^2+c^2
% and 1+a^2; the circumcenter O is (a^2+c) / 2a above BC.
point D
point B
param a
param c
tratio A D B a
lratio C D B c
weights X A B C div { sum { 1 } { mult { a } { a } } }
                    { mult { 2 } { sub { sum { 1 } { sum { mult { a } { a } } { mult { c } { c } } } } { c } } }
                div { sum { mult { a } { a } } { mult { c } { c } } }
                    { mult { 2 } { sub { sum { 1 } { sum { mult { a } { a } } { mult { c } { c } } } } { c } } }
weights Y A B C div { sum { mult { a } { a } } { mult { c } { c } } }
                    { mult { 2 } { sub { sum { 1 } { sum { mult { a } { a } } { mult { c } { c } } } } { c } } }
                div { mult { sub { 1 } { c } } { sub { 1 } { c } } }
                    { mult { 2 } { sub { sum { 1 } { sum { mult { a } { a } } { mult { c } { c } } } } { c } } }
weights Z A B C div { mult { sub { 1 } { c } } { sub { 1 } { c } } }
                    { mult { 2 } { sub { sum { 1 } { sum { mult { a } { a } } { mult { c } { c } } } } { c } } }
                div { sum { 1 } { mult { a } { a } } }
                    { mult { 2 } { sub { sum { 1 } { sum { mult { a } { a } } { mult { c } { c } } } } { c } } }
midpoint M B C
lratio H D A div { sum { mult { a } { a } } { c } } { mult { 2 } { mult { a } { a } } }
translate O D H M
tratio Y1 Y Z 1
translate A1 Y Y1 A
second T A A1 O
prove { perpendicular B T X Z }
