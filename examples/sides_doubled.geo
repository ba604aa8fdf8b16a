% The sides of a triangle are each produced by their own length: AB beyond B, BC beyond C, CA beyond A. The three ends
% make a triangle of seven times the area (classical).
point A
point B
point C
symmetric X A B
symmetric Y B C
symmetric Z C A
prove { equal { signed_area3 X Y Z } { mult { 7 } { signed_area3 A B C } } }
