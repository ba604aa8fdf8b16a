% Inversion keeps the cross-ratio AB CD / AD BC of the distances of four points (19th century), here in squares.
point O
point R
point A
point B
point C
point D
inverse A1 A O R
inverse B1 B O R
inverse C1 C O R
inverse D1 D O R
prove { equal { mult { mult { mult { pythagoras_difference3 A1 B1 A1 } { pythagoras_difference3 C1 D1 C1 } }
                            { pythagoras_difference3 A D A } }
                     { pythagoras_difference3 B C B } }
              { mult { mult { mult { pythagoras_difference3 A1 D1 A1 } { pythagoras_difference3 B1 C1 B1 } }
                            { pythagoras_difference3 A B A } }
                     { pythagoras_difference3 C D C } } }
