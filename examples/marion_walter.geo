% Marion Walter's theorem (20th century): lines from the corners of a triangle to the points at thirds of the opposite
% sides; the hexagon in the middle has one tenth of the area.
point A
point B
point C
lratio D B C div { 1 } { 3 }
lratio D1 B C div { 2 } { 3 }
lratio E C A div { 1 } { 3 }
lratio E1 C A div { 2 } { 3 }
lratio F A B div { 1 } { 3 }
lratio F1 A B div { 2 } { 3 }
inter P A D B E1
inter Q A D C F1
inter R B E C F1
inter S B E A D1
inter T C F A D1
inter U C F B E1
prove { equal { mult { 10 } { sum { sum { signed_area3 P Q R } { signed_area3 P R S } }
                                { sum { signed_area3 P S T } { signed_area3 P T U } } } }
              { signed_area3 A B C } }
