% Where the triangles OAB and OCD are directly similar, so are OAC and OBD (classical): AC OB = BD OA, here in
% squares.
point O
point A
point B
param r
param s
lratio K O A r
tratio L O A s
translate C O K L
lratio M O B r
tratio N O B s
translate D O M N
prove { equal { mult { pythagoras_difference3 A C A } { pythagoras_difference3 O B O } }
              { mult { pythagoras_difference3 B D B } { pythagoras_difference3 O A O } } }
