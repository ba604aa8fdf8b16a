% The butterfly theorem where M is not the midpoint of the first chord: T is any point. False. Counterexample: M = (0,
% 0), A = (1, 0), B = (-2, 0), C = (0, 1), D = (0, -2), T = (1, 1): AD and BC both meet MT at (2, 2), on one side of
% M.
point M
point A
point C
param r
lratio B M A r
lratio D M C div { mult { r } { pythagoras_difference3 M A M } } { pythagoras_difference3 M C M } % MA MB = MC MD
point T
inter X A D M T
symmetric Y X M
prove { collinear B C Y }
