% spent, spent with the most steps: the feet of the perpendiculars from the feet of the altitudes are on one circle
point A
point B
point C
foot D A B C
foot E B C A
foot F C A B
foot P D A B
foot Q D C A
foot R E A B
foot S E B C
prove { concyclic P Q R S }
