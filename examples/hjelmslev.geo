% Hjelmslev's theorem (Johannes Hjelmslev), affine part: points X and Y divide AB and CD in one ratio r. The midpoints
% of AC, BD and XY are on one line.
point A
point B
point C
point D
param r
lratio X A B r
lratio Y C D r
midpoint L A C
midpoint M B D
midpoint N X Y
prove { collinear L M N }
