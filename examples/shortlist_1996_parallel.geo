% A parallel to a line of the circumcircle (shortlist of the International Mathematical Olympiad 1996, G1): P is a
% point of the circumcircle of a triangle with the orthocenter H, and E is the foot of the altitude from B. PAQB and
% PARC are parallelograms, and AQ meets HR at X. Then EX is parallel to AP. H is made from the circumcenter O by
% vectors.
point O
point A
oncircle B O A
oncircle C O A
oncircle P O A
foot E B A C
translate K O B A
translate H O K C
translate Q P A B
translate R P A C
inter X A Q H R
prove { parallel E X A P }
