% Two half-turns one after another are a translation by twice the segment of their centres (classical).
point A
point B
point P
symmetric Q P A
symmetric R Q B
prove { equal { sratio P R A B } { 2 } }
