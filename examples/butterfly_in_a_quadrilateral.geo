% A line through the intersection M of the diagonals of a quadrilateral ABCD meets the sides AB and CD at X and Y, at
% equal distances from M. Then it meets the sides BC and DA at equal distances from M too (classical). The figure
% begins with M, A, C on a line and X; B is on AX, and D is where BM meets CY.
point M
point A
online C M A
point X
online B A X
symmetric Y X M
inter D B M C Y
inter U B C M X
symmetric V U M
prove { collinear A D V }
