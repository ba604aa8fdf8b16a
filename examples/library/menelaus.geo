% Menelaus' theorem (Menelaus of Alexandria, about 100): a line that cuts the sides of a triangle at D, E and F
% makes ratios whose product is -1, where each is taken with its sign.
point A
point B
point C
online D B C
online E C A
inter F A B D E
prove { equal { mult { mult { sratio A F F B } { sratio B D D C } } { sratio C E E A } } { -1 } }
