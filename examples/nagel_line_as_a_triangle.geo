% Incenter I, centroid G and Nagel point N by weights, with x, y, z for the tangents from A, B, C to the incircle. They are
% on one line (Christian Heinrich von Nagel, 1836), so they make no triangle. Impossible.
point A
point B
point C
param x
param y
param z
weights I A B C div { sum { z } { x } } { mult { 2 } { sum { x } { sum { y } { z } } } }
                div { sum { x } { y } } { mult { 2 } { sum { x } { sum { y } { z } } } }
weights N A B C div { y } { sum { x } { sum { y } { z } } } div { z } { sum { x } { sum { y } { z } } }
centroid G A B C
assume not_collinear I G N
prove { midpoint G I N }
