% Salmon's theorem (George Salmon, 1848): the distances of two points P and Q from the centre O of a circle are as the
% distance of P from the polar of Q to that of Q from the polar of P. Here in squares; X and Y are the feet on the
% polars.
point O
point R
point P
point Q
inverse U Q O R
inverse V P O R
tratio S U O 1 % US is the polar of Q
tratio T V O 1
foot X P U S
foot Y Q V T
prove { equal { mult { pythagoras_difference3 O P O } { pythagoras_difference3 Q Y Q } }
              { mult { pythagoras_difference3 O Q O } { pythagoras_difference3 P X P } } }
