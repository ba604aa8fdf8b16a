% A quarter-turn about A and one back about B make a translation: two points P and X move by the same vector
% (classical).
point A
point B
point P
point X
tratio Q A P 1
tratio R B Q -1
tratio Y A X 1
tratio Z B Y -1
translate U P R X
prove { identical U Z }
