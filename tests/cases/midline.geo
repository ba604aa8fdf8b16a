point A
point B
point C
pratio M A A B div { 1 } { 2 }
pratio N A A C div { 1 } { 2 }
pratio X M M N div { 2 } { 1 }
pratio Y A B C div { 1 } { 1 }
prove { collinear A M B }
