% Two sides produced (European Girls' Mathematical Olympiad 2013, problem 1): the side BC of a triangle is produced
% beyond C by its own length to D, and the side CA beyond A by twice its length to E. Where AD = BE the angle at A is
% right: BE^2 - AD^2 is eight times the product of the vectors AB and AC.
point A
point B
point C
symmetric D B C
pratio E A C A 2
prove { equal { sub { pythagoras_difference3 B E B } { pythagoras_difference3 A D A } }
              { mult { 8 } { pythagoras_difference3 B A C } } }
