% The lines from the corners of a triangle to the first third of each opposite side do not meet in one point: the
% product of Ceva's theorem is 1/8. False. Counterexample: A = (0, 0), B = (3, 0), C = (0, 3): X = (12/7, 6/7) is not
% on the line from C to F = (1, 0).
point A
point B
point C
lratio D B C div { 1 } { 3 }
lratio E C A div { 1 } { 3 }
lratio F A B div { 1 } { 3 }
inter X A D B E
prove { collinear C F X }
