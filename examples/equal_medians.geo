% Two medians of a triangle are equal only where two sides are. False. Counterexample: A = (0, 0), B = (4, 0), C = (0,
% 2): the medians end at (2, 1) and (0, 1), and their squares are 5 and 17.
point A
point B
point C
midpoint D B C
midpoint E C A
prove { same_length A D B E }
