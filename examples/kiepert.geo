% Kiepert's theorem (Ludwig Kiepert, 1869): similar isosceles triangles stand on the sides of a triangle. The lines
% from the corners to their tops on the opposite sides meet in one point.
point A
point B
point C
param r
midpoint K B C
midpoint L C A
midpoint M A B
tratio D K C r
tratio E L A r
tratio F M B r
inter X A D B E
prove { collinear C F X }
