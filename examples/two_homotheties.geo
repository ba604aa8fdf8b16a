% Two homotheties with the centres A and B, one after another, have their centre on the line AB (Gaspard Monge;
% classical): the lines from P and from X to their images meet on AB.
point A
point B
point P
point X
param r
param s
lratio Q A P r
lratio R B Q s
lratio Y A X r
lratio Z B Y s
inter C P R X Z
prove { collinear A B C }
