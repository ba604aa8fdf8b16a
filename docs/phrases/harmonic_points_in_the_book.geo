% spent, proved with the most steps: in a complete quadrilateral the diagonal points divide a side harmonically
point A
point B
point C
point P
inter D A P B C
inter E B P C A
inter F C P A B
inter X E F B C
prove { harmonic B C D X }
