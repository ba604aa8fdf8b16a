% Where the tangents at two opposite corners A and C of a cyclic quadrilateral meet on the diagonal BD, opposite sides
% have equal products (the harmonic quadrilateral; 19th century): here in squares.
point T
point A
param r
tratio O A T r
reflect C A T O
oncircle B O A
second D B T O
prove { equal { mult { pythagoras_difference3 A B A } { pythagoras_difference3 C D C } }
              { mult { pythagoras_difference3 B C B } { pythagoras_difference3 D A D } } }
