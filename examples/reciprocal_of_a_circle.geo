% The poles of the tangents of a circle in a second circle around O are on a conic with the focus O (Jean-Victor
% Poncelet, 1822): their distances from O and from the polar of M, the centre of the first circle, are as OM to the
% radius MX. K is the foot of O on the tangent at X, Q its pole, and L the foot of Q on the polar of M; all in
% squares. XK is k times, and KO along the radius h times as long as XM.
point X
point M
param k
param h
tratio K X M k
pratio O K X M h
point R
inverse Q K O R
inverse N M O R
tratio S N O 1
foot L Q N S
prove { equal { mult { pythagoras_difference3 O Q O } { pythagoras_difference3 M X M } }
              { mult { pythagoras_difference3 O M O } { pythagoras_difference3 Q L Q } } }
