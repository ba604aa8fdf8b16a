% A projection from a point S keeps the cross-ratio of four points A, B, C, D of a line (Pappus of Alexandria,
% VII.129); the ratios are taken on the line and on its image.
point S
point A
point B
online C A B
online D A B
online A1 S A
online B1 S B
inter C1 A1 B1 S C
inter D1 A1 B1 S D
prove { equal { mult { mult { mult { sratio A C A B } { sratio B D A B } } { sratio A1 D1 A1 B1 } }
                     { sratio B1 C1 A1 B1 } }
              { mult { mult { mult { sratio A D A B } { sratio B C A B } } { sratio A1 C1 A1 B1 } }
                     { sratio B1 D1 A1 B1 } } }
