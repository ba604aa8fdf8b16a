% Four points of a line (Leonhard Euler, 18th century): AB CD + AC DB + AD BC = 0, here divided by AB^2.
point A
point B
online C A B
online D A B
prove { equal { sum { sum { sratio C D A B } { mult { sratio A C A B } { sratio D B A B } } }
                    { mult { sratio A D A B } { sratio B C A B } } } { 0 } }
