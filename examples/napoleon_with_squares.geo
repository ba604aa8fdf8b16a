% Napoleon's theorem has equilateral triangles on the sides of a triangle. With squares in their place the three
% centres make no equilateral triangle. False. Counterexample: A = (0, 0), B = (0, 2), C = (4, 0): the centres are (3,
% 3), (2, -2) and (-1, 1), with the squares 26 and 20 of two sides.
point A
point B
point C
midpoint K B C
midpoint L C A
midpoint M A B
tratio P K C 1
tratio Q L A 1
tratio R M B 1
prove { same_length P Q P R }
