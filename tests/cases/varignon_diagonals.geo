point A
point B
point C
point D
pratio K A A B div { 1 } { 2 }
pratio L B B C div { 1 } { 2 }
pratio M C C D div { 1 } { 2 }
pratio N D D A div { 1 } { 2 }
pratio X K K M div { 1 } { 2 }
prove { collinear L X N }
