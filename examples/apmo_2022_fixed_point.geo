% A line through a fixed point (Asian Pacific Mathematics Olympiad 2022, problem 2): ABC is a triangle with a right
% angle at B, and D is a point of the line BC. E is the midpoint of AD, and the circles around ACD and BDE meet again
% at F. The line EF passes through a fixed point, wherever D is: the reflection X of C in B.
point B
point A
param c
tratio C B A c
online D B C
midpoint E A D
circumcenter P A C D
circumcenter Q B D E
cc F P Q D
symmetric X C B
prove { collinear E F X }
