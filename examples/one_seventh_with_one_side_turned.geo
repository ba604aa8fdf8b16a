% The one-seventh triangle with the third point counted from the wrong end of its side. False. Counterexample: any
% triangle; the triangle in the middle has a seventieth of the area.
point A
point B
point C
lratio D B C div { 1 } { 3 }
lratio E C A div { 1 } { 3 }
lratio F B A div { 1 } { 3 }
inter X A D B E
inter Y B E C F
inter Z C F A D
prove { equal { mult { 7 } { signed_area3 X Y Z } } { signed_area3 A B C } }
