% The Tucker circle (Robert Tucker, 19th century): PQ and RS are antiparallel sides of Tucker's hexagon with the
% parallel QR between them. They are equal, so that P, Q, R, S are the corners of an isosceles trapezoid, and all six
% corners of the hexagon are on one circle. AP is t AB; PQ is antiparallel to BC, for AP AB = AQ AC, QR is parallel to
% AB, for BR/BC = AQ/AC, and RS is antiparallel to CA, for BS BA = BR BC.
point A
point B
point C
param t
lratio P A B t
lratio Q A C div { mult { t } { pythagoras_difference3 A B A } } { pythagoras_difference3 A C A }
lratio R B C div { mult { t } { pythagoras_difference3 A B A } } { pythagoras_difference3 A C A }
lratio S B A div { mult { t } { pythagoras_difference3 B C B } } { pythagoras_difference3 A C A }
prove { same_length P Q R S }
