% proved: four of these feet are on one circle, by the power of A
point A
point B
point C
foot D A B C
foot E B C A
foot F C A B
foot P D A B
foot R E A B
foot Q D C A
foot T F C A
prove { equal { pythagoras_difference3 P A R } { pythagoras_difference3 Q A T } }
