% The Brocard circle (Henri Brocard, 1881): the circle over the segment from the circumcenter O to the Lemoine point K
% passes through the Brocard points; here the angle at the first one, Q. K has the squares of BC, CA and AB as
% weights, and Q the products of the squares of BC and CA, AB and BC, CA and AB. D is the foot of the altitude from A,
% DA and DC are a and c times DB, so the squares of BC, CA and AB are (1-c)^2, a^2+c^2 and 1+a^2.
point D
point B
param a
param c
tratio A D B a
lratio C D B c
circumcenter O A B C
weights K A B C div { sum { mult { a } { a } } { mult { c } { c } } }
                    { sum { mult { sub { 1 } { c } } { sub { 1 } { c } } }
                          { sum { sum { mult { a } { a } } { mult { c } { c } } } { sum { 1 } { mult { a } { a } } } } }
                div { sum { 1 } { mult { a } { a } } }
                    { sum { mult { sub { 1 } { c } } { sub { 1 } { c } } }
                          { sum { sum { mult { a } { a } } { mult { c } { c } } } { sum { 1 } { mult { a } { a } } } } }
weights Q A B C div { mult { mult { sub { 1 } { c } } { sub { 1 } { c } } }
                           { sum { mult { a } { a } } { mult { c } { c } } } }
                    { sum { mult { mult { sub { 1 } { c } } { sub { 1 } { c } } } { sum { 1 } { mult { a } { a } } } }
                          { mult { sum { mult { a } { a } } { mult { c } { c } } }
                                 { sum { mult { sub { 1 } { c } } { sub { 1 } { c } } }
                                       { sum { 1 } { mult { a } { a } } } } } }
                div { mult { sum { mult { a } { a } } { mult { c } { c } } } { sum { 1 } { mult { a } { a } } } }
                    { sum { mult { mult { sub { 1 } { c } } { sub { 1 } { c } } } { sum { 1 } { mult { a } { a } } } }
                          { mult { sum { mult { a } { a } } { mult { c } { c } } }
                                 { sum { mult { sub { 1 } { c } } { sub { 1 } { c } } }
                                       { sum { 1 } { mult { a } { a } } } } } }
prove { perpendicular O Q Q K }
