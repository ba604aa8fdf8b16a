% The four corners of an isosceles trapezoid are on one circle (classical). D and C are the reflections of A and B in
% one line.
point A
point B
point U
point V
reflect D A U V
reflect C B U V
prove { concyclic A B C D }
