% Menelaus' theorem with the sign of Ceva's theorem: false. Counterexample: A = (0, 0), B = (2, 0), C = (0, 2), D =
% (1, 1), E = (0, 4), F = (4/3, 0): the ratios are 2, 1 and -1/2.
point A
point B
point C
online D B C
online E C A
inter F A B D E
prove { equal { mult { mult { sratio A F F B } { sratio B D D C } } { sratio C E E A } } { 1 } }
