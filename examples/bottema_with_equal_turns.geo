% Bottema's theorem with one square inside: both are turned the same way. False. Counterexample: A = (0, 0), B = (2,
% 0), C = (1, 1) give M = (0, 0) and E = (1, 1).
point A
point B
point C
tratio P A C 1
tratio Q B C 1
midpoint M P Q
midpoint D A B
tratio E D B 1
prove { identical M E }
