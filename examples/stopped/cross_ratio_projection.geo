% A projection from a point keeps the cross-ratio of four points of a line (Pappus of Alexandria, VII.129).
point A
point B
online C A B
online D A B
point S
point U
point V
inter A1 S A U V
inter B1 S B U V
inter C1 S C U V
inter D1 S D U V
prove { equal { mult { mult { mult { sratio A C A B } { sratio B D A B } } { sratio A1 D1 A1 B1 } }
                     { sratio B1 C1 A1 B1 } }
              { mult { mult { mult { sratio A D A B } { sratio B C A B } } { sratio A1 C1 A1 B1 } }
                     { sratio B1 D1 A1 B1 } } }
