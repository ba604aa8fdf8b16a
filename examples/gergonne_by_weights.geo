% The Gergonne point by weights (Joseph Gergonne, 19th century). With x, y, z for the tangents from A, B, C to the
% incircle, the circle touches BC at the distance y from B and CA at the distance z from C. The lines from A and B to
% these points meet in the point with the weights 1/x, 1/y, 1/z; here they are multiplied by xyz.
point A
point B
point C
assume not_collinear A B C
param x
param y
param z
lratio D B C div { y } { sum { y } { z } }
lratio E C A div { z } { sum { z } { x } }
weights G A B C div { mult { z } { x } } { sum { mult { y } { z } } { sum { mult { z } { x } } { mult { x } { y } } } }
                div { mult { x } { y } } { sum { mult { y } { z } } { sum { mult { z } { x } } { mult { x } { y } } } }
inter H A D B E
prove { identical G H }
