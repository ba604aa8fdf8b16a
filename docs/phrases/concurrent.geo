% proved: the medians meet
point A
point B
point C
midpoint D B C
midpoint E C A
midpoint F A B
inter G A D B E
prove { collinear C F G }
