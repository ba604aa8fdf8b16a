% The orthocenter is on the circumcircle of right triangles alone. False. Counterexample: A = (0, 5), B = (-4, 3), C =
% (4, 3) around O = (0, 0): H = (0, 11).
point O
point A
oncircle B O A
oncircle C O A
translate K O A B
translate H O K C
prove { same_length O H O A }
