% Inversion with the radius r takes A and B to points with the distance AB r^2 / (OA OB) (19th century).
point O
point R
point A
point B
inverse A1 A O R
inverse B1 B O R
prove { equal { mult { mult { pythagoras_difference3 A1 B1 A1 } { pythagoras_difference3 O A O } }
                     { pythagoras_difference3 O B O } }
              { mult { pythagoras_difference3 A B A }
                     { mult { pythagoras_difference3 O R O } { pythagoras_difference3 O R O } } } }
