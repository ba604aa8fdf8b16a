% Two powers with a constant ratio (John Casey, A Sequel to Euclid, 1881; coaxal circles): the circles around O, P and
% N pass through one point A, and N divides OP, with ON = r OP. For each point X of the circle around N the powers for
% the circles around O and P are in the ratio of NO to NP: 1 - r times the first is -r times the second.
point O
point P
point A
param r
lratio N O P r
oncircle X N A
prove { equal { mult { sub { 1 } { r } } { sub { pythagoras_difference3 X O X } { pythagoras_difference3 O A O } } }
              { mult { neg { r } } { sub { pythagoras_difference3 X P X } { pythagoras_difference3 P A P } } } }
