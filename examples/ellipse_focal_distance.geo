% The distance of a point of an ellipse from a focus is a - ex (Apollonius of Perga, Conics III.52), so that the
% distances from both foci have the constant sum 2a. With the half-axis OE as the unit, the other half-axis is b = 2m
% / (1+m^2), the focus G is at e = (1-m^2) / (1+m^2), and the point X is at x = (1-t^2) / (1+t^2) along OE and 2t /
% (1+t^2) along OF. Here in squares.
point O
point E
param m
param t
tratio F O E div { mult { 2 } { m } } { sum { 1 } { mult { m } { m } } }
lratio G O E div { sub { 1 } { mult { m } { m } } } { sum { 1 } { mult { m } { m } } }
lratio U O E div { sub { 1 } { mult { t } { t } } } { sum { 1 } { mult { t } { t } } }
pratio X U O F div { mult { 2 } { t } } { sum { 1 } { mult { t } { t } } }
prove { equal { pythagoras_difference3 G X G }
              { mult { pythagoras_difference3 O E O }
                     { mult { sub { 1 }
                                  { mult { div { sub { 1 } { mult { m } { m } } } { sum { 1 } { mult { m } { m } } } }
                                         { div { sub { 1 } { mult { t } { t } } }
                                               { sum { 1 } { mult { t } { t } } } } } }
                            { sub { 1 }
                                  { mult { div { sub { 1 } { mult { m } { m } } } { sum { 1 } { mult { m } { m } } } }
                                         { div { sub { 1 } { mult { t } { t } } }
                                               { sum { 1 } { mult { t } { t } } } } } } } } }
