% The complete quadrilateral, from four corners: the figure as one would draw it.
point A
point B
point C
point D
inter E A B C D
inter F A D B C
inter G A C E F
inter H B D E F
prove { harmonic E F G H }
