% Leibniz' theorem (Gottfried Wilhelm Leibniz, 17th century): PA^2 + PB^2 + PC^2 = GA^2 + GB^2 + GC^2 + 3 PG^2 for the
% centroid G of a triangle and any point P.
point A
point B
point C
point P
centroid G A B C
prove { equal { sum { sum { pythagoras_difference3 P A P } { pythagoras_difference3 P B P } }
                    { pythagoras_difference3 P C P } }
              { sum { sum { sum { pythagoras_difference3 G A G } { pythagoras_difference3 G B G } }
                          { pythagoras_difference3 G C G } }
                    { mult { 3 } { pythagoras_difference3 P G P } } } }
