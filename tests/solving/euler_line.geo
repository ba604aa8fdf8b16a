% The Euler line by meeting points alone: the centroid is the point X at a third of the way from O to H.
point A
point B
point C
midpoint D B C
midpoint E C A
midpoint F A B
foot K D E F
foot L E F D
inter O D K E L
foot M A B C
foot N B C A
inter H A M B N
lratio G A D div { 2 } { 3 }
lratio X O H div { 1 } { 3 }
prove { identical X G }
