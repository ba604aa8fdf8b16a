% Quarter-turns about the corners of a square bring each point back only against the turn; here they go along with it.
% False. Counterexample: A = P = (0, 0), B = (1, 0), C = (1, 1), D = (0, 1): the walk ends at (0, 4).
point A
point B
point P
tratio D A B 1
translate C A B D
tratio Q A P 1
tratio R B Q 1
tratio S C R 1
tratio T D S 1
prove { identical T P }
