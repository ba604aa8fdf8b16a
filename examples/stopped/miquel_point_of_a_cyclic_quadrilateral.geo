% The Miquel point of the sides of a cyclic quadrilateral ABCD is the inverse M, in its circle, of the intersection P
% of the diagonals (classical). Here: M is on the circle EAD, where E is the intersection of AB and CD.
point O
point A
oncircle B O A
oncircle C O A
oncircle D O A
inter P A C B D
inter E A B C D
inverse M P O A
prove { concyclic E A D M }
