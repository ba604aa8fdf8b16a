% Ceva's theorem with the sign of Menelaus' theorem: false. Counterexample: the medians, for which each of the three
% ratios is 1.
point A
point B
point C
point P
inter D A P B C
inter E B P C A
inter F C P A B
prove { equal { mult { mult { sratio A F F B } { sratio B D D C } } { sratio C E E A } } { -1 } }
