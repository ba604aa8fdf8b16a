% Three circles with the centres L, M and N pass through A and through a second point, so that N is on the line LM. A
% line through A meets them again at X, Y and Z, and these are in the ratio of the centres: XZ : XY is LN : LM
% (classical).
point L
point M
point A
online N L M
point U
second X A U L
second Y A U M
second Z A U N
prove { equal { sratio X Z X Y } { sratio L N L M } }
