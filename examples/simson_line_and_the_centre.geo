% The Simson line of a point of the circumcircle does not pass through the circumcenter. False. Counterexample: A =
% (5, 0), B = (0, 5), C = (3, 4), P = (0, -5) around O = (0, 0): the feet are (3, 4) and (6, -2).
point O
point A
oncircle B O A
oncircle C O A
oncircle P O A
foot X P B C
foot Y P C A
prove { collinear X Y O }
