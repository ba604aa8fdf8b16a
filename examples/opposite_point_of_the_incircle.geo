% The line from a corner A to the point T of the incircle that is opposite to its point D on BC meets BC where the
% excircle touches it: at the reflection X of D in the midpoint of BC (classical). The figure begins with the
% incircle.
point I
point D
oncircle E I D
oncircle F I D
tratio D1 D I 1
tratio E1 E I 1
tratio F1 F I 1
inter A E E1 F F1
inter B F F1 D D1
inter C D D1 E E1
symmetric T D I
midpoint M B C
symmetric X D M
prove { collinear A T X }
