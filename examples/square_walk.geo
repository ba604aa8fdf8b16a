% Quarter-turns about the four corners of a square, one after another against the turn, bring each point back
% (classical).
point A
point B
point P
tratio D A B 1
translate C A B D
tratio Q D P 1
tratio R C Q 1
tratio S B R 1
tratio T A S 1
prove { identical T P }
