% The corners of a parallelogram are on one circle only where it is a rectangle. False. Counterexample: A = (0, 0), B
% = (2, 0), C = (3, 1), D = (1, 1): the circle through A, B and C does not pass through D.
point A
point B
point C
translate D B C A
prove { concyclic A B C D }
