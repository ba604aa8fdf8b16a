% proved: a point D of the bisector is equally far from both arms
point A
point B
point D
reflect X B A D
foot F D A B
foot G D A X
prove { same_length D F D G }
