% The converse of Pascal's theorem (William Braikenridge and Colin Maclaurin, 1733): where the opposite sides of a
% hexagon with five corners on a circle meet in three points of one line, the sixth corner is on the circle.
point O
point A
oncircle B O A
oncircle C O A
oncircle D O A
oncircle E O A
inter X A B D E
online Z C D
inter Y B C X Z
inter F E Y Z A
prove { same_length O F O A }
