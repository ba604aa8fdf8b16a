% Incenter, centroid and Nagel point by weights (Christian Heinrich von Nagel, 1836). With x, y, z for the tangents from
% A, B, C to the incircle, the incenter I has the sides y + z, z + x, x + y as weights, and the Nagel point N has x, y, z.
% The centroid divides IN in the ratio 1 : 2.
point A
point B
point C
param x
param y
param z
weights I A B C div { sum { z } { x } } { mult { 2 } { sum { x } { sum { y } { z } } } }
                div { sum { x } { y } } { mult { 2 } { sum { x } { sum { y } { z } } } }
weights N A B C div { y } { sum { x } { sum { y } { z } } } div { z } { sum { x } { sum { y } { z } } }
weights G A B C div { 1 } { 3 } div { 1 } { 3 }
lratio H I N div { 1 } { 3 }
prove { identical G H }
