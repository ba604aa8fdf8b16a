% Pascal's theorem with sides that are not opposite: AB and EF in place of AB and DE. False. Counterexample: A = (5,
% 0), B = (4, 3), C = (0, 5), D = (-3, 4), E = (3, -4), F = (4, -3) on a circle around (0, 0): X = (11/2, -3/2), Y =
% (-6, 8) and Z = (15/2, 15/2).
point O
point A
oncircle B O A
oncircle C O A
oncircle D O A
oncircle E O A
oncircle F O A
inter X A B E F
inter Y B C D E
inter Z C D F A
prove { collinear X Y Z }
