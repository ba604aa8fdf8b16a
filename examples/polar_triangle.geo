% The corners of a triangle and the poles of the opposite sides in a circle are joined by three lines through one
% point (Michel Chasles, 19th century). The pole X of BC is at the distance r^2 BC / 2 OBC from the centre O, in the
% direction perpendicular to BC, where OBC is the area and r the radius OR.
point O
point R
point A
point B
point C
translate T B C O
tratio X O T div { pythagoras_difference3 O R O } { mult { 4 } { signed_area3 O C B } }
translate U C A O
tratio Y O U div { pythagoras_difference3 O R O } { mult { 4 } { signed_area3 O A C } }
translate V A B O
tratio Z O V div { pythagoras_difference3 O R O } { mult { 4 } { signed_area3 O B A } }
inter S A X B Y
prove { collinear C Z S }
