% The lines from the corners of a pentagon through a point P meet the opposite sides; the five ratios have the product
% 1 (Jean-Victor Poncelet, 1822).
point A
point B
point C
point D
point E
point P
inter K A P C D
inter L B P D E
inter M C P E A
inter N D P A B
inter T E P B C
prove { equal { mult { mult { mult { mult { sratio C K K D } { sratio D L L E } } { sratio E M M A } }
                            { sratio A N N B } }
                     { sratio B T T C } }
              { 1 } }
