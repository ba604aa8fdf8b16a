% Two parallelograms ABCD and AEFG have the corner A in common; E is on the line BC and D is on the line FG. They have
% the same area, since each is twice the triangle AED (classical).
point A
point B
point D
translate C A B D
online E B C
param t
pratio G D A E t
translate F A E G
prove { equal { sum { signed_area3 A B C } { signed_area3 A C D } }
              { sum { signed_area3 A E F } { signed_area3 A F G } } }
