% The arbelos (Pappus of Alexandria, IV; Archimedes, Book of Lemmas 6): the circle that touches the three half-circles
% over AC, CB and AB has its centre twice its radius above the line AB. With p and k for the radii over AC and CB its
% radius is r = pk(p+k) / (p^2+pk+k^2); the centre K has the height 2r, over F. Here: it touches the half-circle over
% CB with the centre V, for KV = k + r.
point A
point B
param p
param k
lratio V A B div { sum { mult { 2 } { p } } { k } } { mult { 2 } { sum { p } { k } } }
lratio F A B div { mult { p } { sum { mult { 2 } { p } } { k } } }
                 { mult { 2 } { sum { sum { mult { p } { p } } { mult { p } { k } } } { mult { k } { k } } } }
tratio G A B div { mult { p } { k } } { sum { sum { mult { p } { p } } { mult { p } { k } } } { mult { k } { k } } }
translate K A G F
prove { equal { mult { mult { 4 } { mult { sum { p } { k } } { sum { p } { k } } } } { pythagoras_difference3 K V K } }
              { mult { mult { sum { k }
                                  { div { mult { mult { p } { k } } { sum { p } { k } } }
                                        { sum { sum { mult { p } { p } } { mult { p } { k } } }
                                              { mult { k } { k } } } } }
                            { sum { k }
                                  { div { mult { mult { p } { k } } { sum { p } { k } } }
                                        { sum { sum { mult { p } { p } } { mult { p } { k } } }
                                              { mult { k } { k } } } } } }
                     { pythagoras_difference3 A B A } } }
