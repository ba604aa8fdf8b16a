% Two half-turns one after another make a translation, and in the other order the opposite one. False: they do not
% commute. Counterexample: A = (0, 0), B = (1, 0), P = (0, 1): the one way leads to (2, 1), the other to (-2, 1).
point A
point B
point P
symmetric Q P A
symmetric R Q B
symmetric S P B
symmetric T S A
prove { identical R T }
