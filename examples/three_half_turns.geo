% Three half-turns one after another are a half-turn; its centre makes a parallelogram with the three (classical).
point A
point B
point C
point P
symmetric Q P A
symmetric R Q B
symmetric S R C
translate D B C A
prove { midpoint D P S }
