% The poles of the tangents of a circle in a second circle around O are on a conic with the focus O (Jean-Victor
% Poncelet, 1822): their distances from O and from the polar of the centre M of the first circle are as OM to its
% radius. Q is the pole of the tangent at X, and L the foot of Q on the polar of M; all in squares.
point O
point R
point M
point A
oncircle X M A
tratio T X M 1
foot K O X T
inverse Q K O R
inverse N M O R
tratio S N O 1
foot L Q N S
prove { equal { mult { pythagoras_difference3 O Q O } { pythagoras_difference3 M A M } }
              { mult { pythagoras_difference3 O M O } { pythagoras_difference3 Q L Q } } }
