% The centres of the circles of four lines are on one circle with their common point F (Jakob Steiner, 1828). Three of
% these circles pass through F and through two of the points X, Y and Z of one line.
point F
point X
point Y
online Z X Y
circumcenter U F X Y
circumcenter V F X Z
circumcenter W F Y Z
prove { concyclic F U V W }
