% The orthocenters of the feet of a point (International Mathematical Olympiad 1965, problem 5): from a point M of the
% side AB of a triangle OAB the perpendiculars MP and MQ are drawn to OA and OB. The orthocenter H of OPQ is on the
% line of the feet C and D of the altitudes from A and B.
point O
point A
point B
online M A B
foot P M O A
foot Q M O B
orthocenter H O P Q
foot C A O B
foot D B O A
prove { collinear C D H }
