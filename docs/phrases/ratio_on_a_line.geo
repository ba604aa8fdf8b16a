% proved: the centroid divides a median as 2 to 1
point A
point B
point C
midpoint D B C
midpoint E C A
inter G A D B E
prove { equal { sratio A G G D } { 2 } }
