% Feuerbach: the circle of the midpoints touches the incircle. Touching points first.
point I
point D
oncircle E I D
oncircle F I D
midpoint K1 E F
midpoint K2 F D
midpoint K3 D E
inverse A K1 I D
inverse B K2 I D
inverse C K3 I D
midpoint L B C
midpoint M C A
midpoint N A B
circumcenter V L M N
prove { equal { mult { sub { sub { pythagoras_difference3 V I V } { pythagoras_difference3 I D I } } { pythagoras_difference3 V L V } } { sub { sub { pythagoras_difference3 V I V } { pythagoras_difference3 I D I } } { pythagoras_difference3 V L V } } } { mult { 4 } { mult { pythagoras_difference3 I D I } { pythagoras_difference3 V L V } } } }
