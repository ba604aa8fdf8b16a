% Two inversions in circles that cut one another at right angles can be exchanged (19th century): they take each point
% P to the same point in either order. The circles are those around O and M through R.
point O
point R
param s
tratio M R O s
point P
inverse P1 P O R
inverse P2 P1 M R
inverse Q1 P M R
inverse Q2 Q1 O R
prove { identical P2 Q2 }
