% The feet of the perpendiculars from the feet of the altitudes are on one circle (Taylor); the foot of one altitude is the origin.
param s
param h
point D
point A
tratio B D A s
tratio C D A div { mult { -1 } { h } } { s }
foot E B C A
foot D1 D A B
foot D2 D A C
foot E1 E B C
foot E2 E A B
prove { concyclic D1 D2 E1 E2 }
