% proved: the same circle as in concyclic.geo, by the power of the corner where the two sides meet
point A
point B
point C
foot D B A C
foot E C A B
prove { equal { pythagoras_difference3 B A E } { pythagoras_difference3 C A D } }
