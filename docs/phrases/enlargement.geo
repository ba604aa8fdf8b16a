% proved: an enlargement from O by r makes lengths r times as long
point O
point A
point B
param r
lratio A1 O A r
lratio B1 O B r
prove { equal { pythagoras_difference3 A1 B1 A1 } { mult { mult { r } { r } } { pythagoras_difference3 A B A } } }
