% Thebault's first theorem (Victor Thebault, 20th century): the centres of the squares on the sides of a parallelogram are the
% corners of a square.
point A
point B
point D
translate C A B D
midpoint K A B
midpoint L B C
midpoint N D A
tratio P K B 1
tratio Q L C 1
tratio S N A 1
tratio T P Q -1
prove { identical S T }
