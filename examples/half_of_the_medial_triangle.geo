% The triangle of the midpoints of the sides has a quarter of the area, and not a half. False. Counterexample: any
% triangle that is not flat.
point A
point B
point C
midpoint D B C
midpoint E C A
midpoint F A B
prove { equal { mult { 2 } { signed_area3 D E F } } { signed_area3 A B C } }
