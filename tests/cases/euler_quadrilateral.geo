point A
point B
point C
point D
pratio P A A C div { 1 } { 2 }
pratio Q B B D div { 1 } { 2 }
pratio K A A B div { 1 } { 2 }
pratio M C C D div { 1 } { 2 }
pratio X K K M div { 1 } { 2 }
prove { collinear P X Q }
