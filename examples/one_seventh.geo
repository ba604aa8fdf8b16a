% The one-seventh triangle: lines from the corners to points at one third of the sides make a triangle of one seventh
% of the area, a case of Routh's theorem.
point A
point B
point C
lratio D B C div { 1 } { 3 }
lratio E C A div { 1 } { 3 }
lratio F A B div { 1 } { 3 }
inter X A D B E
inter Y B E C F
inter Z C F A D
prove { equal { mult { 7 } { signed_area3 X Y Z } } { signed_area3 A B C } }
