% The Neuberg circle (Joseph Neuberg, 1882): all triangles on one base BC with the same Brocard angle, whose cotangent
% is (a^2 + b^2 + c^2) / 4 S, have their third corner on one circle. Its centre N is over the midpoint M of BC, at
% half of the base times this cotangent, and the square of its radius is NA^2 = NM^2 - 3/4 BC^2.
point A
point B
point C
midpoint M B C
tratio N M C div { sum { pythagoras_difference3 A B A }
                       { sum { pythagoras_difference3 B C B } { pythagoras_difference3 C A C } } }
                 { mult { 8 } { signed_area3 A B C } }
prove { equal { mult { 4 } { pythagoras_difference3 N A N } }
              { sub { mult { 4 } { pythagoras_difference3 N M N } } { mult { 3 } { pythagoras_difference3 B C B } } } }
