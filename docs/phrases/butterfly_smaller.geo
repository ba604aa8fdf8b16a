% proved: Y is X mirrored in M, and lies on BC
point O
point M
point A
tratio P M O 1
second B A M O
oncircle C O A
second D C M O
inter X A D P M
symmetric Y X M
prove { collinear B C Y }
