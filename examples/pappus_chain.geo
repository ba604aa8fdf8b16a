% The chain of Pappus (Pappus of Alexandria, IV; called ancient there): half-circles stand over AC and AB, with AC = r
% AB. The circles of the chain between them touch both and their neighbours; the circle with the number n has its
% centre K at the height 2n times its radius r (1 - r) / 2d over AB, and r (1 + r) / 2d along AB, for d = n^2 (1 -
% r)^2 + r. Here: it touches the next one, with the centre L.
point A
point B
param r
param n
lratio U A B div { mult { r } { sum { 1 } { r } } }
                 { mult { 2 } { sum { mult { mult { n } { n } } { mult { sub { 1 } { r } } { sub { 1 } { r } } } }
                                    { r } } }
tratio V A B div { mult { n } { mult { r } { sub { 1 } { r } } } }
                 { sum { mult { mult { n } { n } } { mult { sub { 1 } { r } } { sub { 1 } { r } } } } { r } }
translate K A U V
lratio W A B div { mult { r } { sum { 1 } { r } } }
                 { mult { 2 } { sum { mult { mult { sum { n } { 1 } } { sum { n } { 1 } } }
                                           { mult { sub { 1 } { r } } { sub { 1 } { r } } } }
                                    { r } } }
tratio X A B div { mult { sum { n } { 1 } } { mult { r } { sub { 1 } { r } } } }
                 { sum { mult { mult { sum { n } { 1 } } { sum { n } { 1 } } }
                              { mult { sub { 1 } { r } } { sub { 1 } { r } } } }
                       { r } }
translate L A W X
prove { equal { pythagoras_difference3 K L K }
              { mult { pythagoras_difference3 A B A }
                     { mult { sum { div { mult { r } { sub { 1 } { r } } }
                                        { mult { 2 } { sum { mult { mult { n } { n } }
                                                                  { mult { sub { 1 } { r } } { sub { 1 } { r } } } }
                                                           { r } } } }
                                  { div { mult { r } { sub { 1 } { r } } }
                                        { mult { 2 } { sum { mult { mult { sum { n } { 1 } } { sum { n } { 1 } } }
                                                                  { mult { sub { 1 } { r } } { sub { 1 } { r } } } }
                                                           { r } } } } }
                            { sum { div { mult { r } { sub { 1 } { r } } }
                                        { mult { 2 } { sum { mult { mult { n } { n } }
                                                                  { mult { sub { 1 } { r } } { sub { 1 } { r } } } }
                                                           { r } } } }
                                  { div { mult { r } { sub { 1 } { r } } }
                                        { mult { 2 } { sum { mult { mult { sum { n } { 1 } } { sum { n } { 1 } } }
                                                                  { mult { sub { 1 } { r } } { sub { 1 } { r } } } }
                                                           { r } } } } } } } }
