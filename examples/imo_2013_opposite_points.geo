% Two opposite points and the orthocenter (International Mathematical Olympiad 2013, problem 4): M and N are the feet
% of the altitudes from B and C of a triangle with the orthocenter H, and W is a point of BC. X is opposite to W on
% the circle around BWN, and Y on the circle around CWM. Then X, H and Y are on one line. The figure begins with the
% foot D of the altitude from A: DC and DA are c and a times DB. The angles at B and N over WX are right, and those at
% C and M over WY.
point D
point B
param c
lratio C D B c
param a
tratio A D B a
tratio H D B div { neg { c } } { a }
online W B C
foot N C A B
foot M B C A
line s B C
perp b B s
perp d C s
line u W N
perp x N u
intersec X b x
line v W M
perp y M v
intersec Y d y
prove { collinear X Y H }
