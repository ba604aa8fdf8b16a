% Three circles have their centres O, P and N on one line. The common chords AB and CD of two pairs of them are
% parallel, so they do not meet in a radical centre. Impossible.
point O
point P
point A
cc B O P A
online N O P
oncircle C O A
cc D O N C
inter X A B C D
prove { collinear O P X }
