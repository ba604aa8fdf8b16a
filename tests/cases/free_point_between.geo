point A
point B
pratio M A A B div { 1 } { 2 }
point C
pratio N A A C div { 1 } { 2 }
pratio K M B C div { 1 } { 2 }
prove { collinear K N A }
