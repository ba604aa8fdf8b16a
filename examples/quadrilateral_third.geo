% The points at thirds of two opposite sides of a quadrilateral are joined; the middle strip has a third of the area
% (classical).
point A
point B
point C
point D
lratio K A B div { 1 } { 3 }
lratio L A B div { 2 } { 3 }
lratio M C D div { 1 } { 3 }
lratio N C D div { 2 } { 3 }
prove { equal { mult { 3 } { sum { signed_area3 K L M } { signed_area3 K M N } } }
              { sum { signed_area3 A B C } { signed_area3 A C D } } }
