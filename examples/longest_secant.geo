% Two circles around O and P meet at A. The secant through A that is parallel to OP is twice as long as OP (classical;
% it is the longest one).
point O
point P
point A
translate U O P A
second B A U O
second C A U P
prove { equal { sratio B C O P } { 2 } }
