% The butterfly with a line MN that is not perpendicular to OM: false.
point O
point A
point M
point N
second C A M O
oncircle B O A
second D B M O
inter E A B M N
inter F C D M N
prove { midpoint M E F }
