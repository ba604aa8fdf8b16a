% The Simson line with its condition forgotten: here P need not be on the circumcircle. False. Counterexample: A = (0,
% 0), B = (3, 0), C = (0, 3), P = (1, 1): the feet are (3/2, 3/2), (0, 1) and (1, 0).
point A
point B
point C
point P
foot X P B C
foot Y P C A
foot Z P A B
prove { collinear X Y Z }
