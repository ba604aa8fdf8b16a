% Three lines through a point P of a triangle (Gergonne, 19th century): PD/AD + PE/BE + PF/CF = 1.
point A
point B
point C
point P
inter D A P B C
inter E B P C A
inter F C P A B
prove { equal { sum { sum { sratio P D A D } { sratio P E B E } } { sratio P F C F } } { 1 } }
