% The nine-point circle passes through the midpoints and the feet, but not through the centroid. False.
% Counterexample: A = (0, 0), B = (6, 0), C = (0, 6): the circle through (3, 3), (0, 3) and (3, 0) has the centre
% (3/2, 3/2) and does not pass through (2, 2).
point A
point B
point C
midpoint D B C
midpoint E C A
midpoint F A B
centroid G A B C
prove { concyclic D E F G }
