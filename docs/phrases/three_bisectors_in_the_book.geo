% spent, proved with the most steps: the bisectors from B and C meet in I; AI is the third
point I
point B
point C
reflect C1 C B I
reflect B1 B C I
inter A B C1 C B1
prove { equal { mult { signed_area3 A B I } { pythagoras_difference3 I A C } } { mult { signed_area3 A I C } { pythagoras_difference3 B A I } } }
