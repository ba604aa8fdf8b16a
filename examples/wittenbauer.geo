% Wittenbauer's parallelogram (Ferdinand Wittenbauer): next to each corner of a quadrilateral, the points at thirds of
% its two sides are joined; opposite lines are parallel. Here: those next to A and C.
point A
point B
point C
point D
lratio K A B div { 1 } { 3 }
lratio L A D div { 1 } { 3 }
lratio M C D div { 1 } { 3 }
lratio N C B div { 1 } { 3 }
prove { parallel K L M N }
