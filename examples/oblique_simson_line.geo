% Simson's theorem for any angle (19th century): lines from a point P of the circumcircle meet the three sides of a
% triangle at D, E and F under one angle, with its sense of turning; then D, E and F are on one line. From the feet X,
% Y, Z of P the three points are k times as far as P, with k the cotangent of the angle.
point O
point A
oncircle B O A
oncircle C O A
oncircle P O A
param k
foot X P B C
foot Y P C A
foot Z P A B
tratio D X P k
tratio E Y P k
tratio F Z P k
prove { collinear D E F }
