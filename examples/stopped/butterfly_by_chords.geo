% The butterfly theorem (William George Horner, 1815) from the circle: M is the midpoint of a chord, AB and CD are
% chords through M, and AD and BC meet the first chord at X and Y; M is the midpoint of XY.
point O
point M
point A
second B A M O
oncircle C O A
second D C M O
tratio T M O 1
inter X A D M T
inter Y B C M T
prove { midpoint M X Y }
