% Two opposite points and the orthocenter (International Mathematical Olympiad 2013, problem 4): M and N are the feet
% of the altitudes from B and C of a triangle with the orthocenter H, and W is a point of BC. X is opposite to W on
% the circle around BWN, and Y on the circle around CWM. Then X, H and Y are on one line.
point A
point B
point C
foot M B C A
foot N C A B
orthocenter H A B C
online W B C
circumcenter P B W N
circumcenter Q C W M
symmetric X W P
symmetric Y W Q
prove { collinear X Y H }
