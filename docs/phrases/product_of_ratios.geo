% proved: Ceva's theorem
point A
point B
point C
point P
inter D B C A P
inter E C A B P
inter F A B C P
prove { equal { mult { mult { sratio A F F B } { sratio B D D C } } { sratio C E E A } } { 1 } }
