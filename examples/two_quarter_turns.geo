% Quarter-turns about A and B one after another are a half-turn; its centre is the top of an isosceles triangle with a
% right angle on AB (classical).
point A
point B
point P
tratio Q A P 1
tratio R B Q 1
midpoint M A B
tratio C M A 1
prove { midpoint C P R }
