% The three altitudes of a triangle meet in one point, the orthocenter (known since antiquity).
point A
point B
point C
foot D A B C
foot E B C A
inter H A D B E
prove { perpendicular C H A B }
