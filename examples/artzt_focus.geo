% A parabola touches two sides RP and RQ of a triangle at P and Q (August Artzt, 1884). Its focus F is on the
% symmedian from R: the angles PRM and FRQ are equal, with the midpoint M of PQ. O is the vertex of the parabola, OE
% the tangent there, and OF is k times as long; the point with the number t is 2kt OE + t^2 OF, and the tangents of
% the numbers s and t meet at k(s+t) OE + st OF.
point O
point E
param k
param s
param t
tratio F O E k
lratio U O E mult { mult { 2 } { k } } { s }
pratio P U O F mult { s } { s }
lratio V O E mult { mult { 2 } { k } } { t }
pratio Q V O F mult { t } { t }
lratio W O E mult { k } { sum { s } { t } }
pratio R W O F mult { s } { t }
midpoint M P Q
prove { equal { mult { signed_area3 P R M } { pythagoras_difference3 F R Q } }
              { mult { signed_area3 F R Q } { pythagoras_difference3 P R M } } }
