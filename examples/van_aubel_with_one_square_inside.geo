% In van Aubel's theorem all four squares stand on one side, left or right, of the way around the quadrilateral; here
% that on AB is turned. False. Counterexample: A = (0, 0), B = (2, 0), C = (2, 2), D = (0, 4): PR = (-1, 3) and QS =
% (1, 1) as vectors.
point A
point B
point C
point D
midpoint K A B
midpoint L B C
midpoint M C D
midpoint N D A
tratio P K A 1
tratio Q L C 1
tratio R M D 1
tratio S N A 1
prove { perpendicular P R Q S }
