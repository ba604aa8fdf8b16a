% The centroid lies at two thirds of each median, and not half-way. False. Counterexample: A = (0, 0), B = (3, 0), C =
% (0, 3): the centroid is (1, 1), and the midpoint of AD is (3/4, 3/4).
point A
point B
point C
midpoint D B C
midpoint E C A
inter G A D B E
prove { midpoint G A D }
