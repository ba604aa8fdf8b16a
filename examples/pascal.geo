% Pascal's theorem (Blaise Pascal, 1640) for a circle: opposite sides of a hexagon inscribed in a circle meet in
% three points of one line.
point O
point A
oncircle B O A
oncircle C O A
oncircle D O A
oncircle E O A
oncircle F O A
inter X A B D E
inter Y B C E F
inter Z C D F A
prove { collinear X Y Z }
