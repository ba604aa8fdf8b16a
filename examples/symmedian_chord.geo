% The midpoint D of the chord of the circumcircle that begins at A and is on the symmedian (19th century; a corner of
% the second Brocard triangle): DA^2 = DB DC, here in squares. T is the pole of BC, so AT is the symmedian, and D the
% foot on it of the perpendicular from the centre O.
point B
point C
midpoint M B C
param r
tratio T M B r
tratio O M B div { -1 } { r } % BO is perpendicular to BT
oncircle A O B
foot D O A T
prove { equal { mult { pythagoras_difference3 D A D } { pythagoras_difference3 D A D } }
              { mult { pythagoras_difference3 D B D } { pythagoras_difference3 D C D } } }
