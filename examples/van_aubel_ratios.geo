% Van Aubel's theorem on the lines through a point P of a triangle: AP/PD = AF/FB + AE/EC.
point A
point B
point C
point P
inter D A P B C
inter E B P C A
inter F C P A B
prove { equal { sratio A P P D } { sum { sratio A F F B } { sratio A E E C } } }
