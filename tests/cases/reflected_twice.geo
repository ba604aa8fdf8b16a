point A
point B
pratio C B A B div { 1 } { 1 }
pratio D C B C div { 1 } { 1 }
prove { collinear D A B }
