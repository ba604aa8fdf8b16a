% Two inversions with the same centre O and the radii OR and OS make a homothety with the ratio OS^2 / OR^2
% (classical).
point O
point R
point S
point A
inverse B A O R
inverse C B O S
lratio D O A div { pythagoras_difference3 O S O } { pythagoras_difference3 O R O }
prove { identical C D }
