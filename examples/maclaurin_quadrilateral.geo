% The tangents at opposite corners A and C of a quadrilateral in a circle meet on the line through the intersections E
% and F of its opposite sides (Colin Maclaurin, 18th century; a case of Pascal's theorem). T is the inverse of the
% midpoint of AC.
point O
point A
oncircle B O A
oncircle C O A
oncircle D O A
midpoint M A C
inverse T M O A
inter E A B C D
inter F A D B C
prove { collinear T E F }
