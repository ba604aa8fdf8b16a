% The corner A of a triangle and the orthocenter H are conjugate in the circle over the side BC (classical): the
% vectors from the midpoint M of BC to A and H have the product MB^2.
point A
point B
point C
orthocenter H A B C
midpoint M B C
prove { equal { pythagoras_difference3 A M H } { pythagoras_difference3 M B M } }
