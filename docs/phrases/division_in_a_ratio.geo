% proved: P divides AB as 2 to 3
point A
point B
lratio P A B div { 2 } { 5 }
prove { equal { mult { 3 } { sratio A P A B } } { mult { 2 } { sratio P B A B } } }
