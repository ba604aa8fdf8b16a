% The sides of a quadrilateral are each produced by their own length. The four ends make a quadrilateral of five times
% the area (classical).
point A
point B
point C
point D
symmetric X A B
symmetric Y B C
symmetric Z C D
symmetric U D A
prove { equal { sum { signed_area3 X Y Z } { signed_area3 X Z U } }
              { mult { 5 } { sum { signed_area3 A B C } { signed_area3 A C D } } } }
