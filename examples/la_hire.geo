% La Hire's theorem (Philippe de La Hire, 1685): where P is on the polar of Q, the point Q is on the polar of P.
point O
point R % the circle is around O through R
point Q
inverse U Q O R
tratio T U O 1 % UT is the polar of Q
online P U T
inverse V P O R
prove { perpendicular Q V O P }
