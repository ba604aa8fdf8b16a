% The bisector of an inscribed angle passes through the midpoint of the arc (classical): the reflection of C in the
% line AM is on the line AB, where M is the midpoint of the arc BC.
point O
point M
oncircle B O M
reflect C B O M
oncircle A O M
reflect D C A M
prove { collinear A B D }
