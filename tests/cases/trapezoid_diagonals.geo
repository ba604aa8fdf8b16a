point A
point B
point C
pratio D C A B div { 3 } { 5 }
pratio M A A B div { 1 } { 2 }
pratio N C C D div { 1 } { 2 }
pratio S A A D div { 5 } { 8 }
prove { collinear B S C }
