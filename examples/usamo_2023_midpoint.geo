% A midpoint as far from two corners (United States of America Mathematical Olympiad 2023, problem 1): M is the
% midpoint of the side BC of a triangle and P the foot of the perpendicular from C to AM. The circle around ABP meets
% BC at B and Q, and N is the midpoint of AQ. Then NB = NC.
point A
point B
point C
midpoint M B C
foot P C A M
circumcenter O A B P
second Q B C O
midpoint N A Q
prove { same_length N B N C }
