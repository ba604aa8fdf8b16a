% A line cuts the four sides of a quadrilateral at K, L, M and N: the ratios have the product 1 (Lazare Carnot, 1806).
point A
point B
point C
point D
online K A B
online L B C
inter M C D K L
inter N D A K L
prove { equal { mult { mult { mult { sratio A K K B } { sratio B L L C } } { sratio C M M D } } { sratio D N N A } }
              { 1 } }
