% The moment of the sum of two forces is the sum of their moments (Pierre Varignon, 1687): for a parallelogram ABCD
% and any point P the area PAC is the sum of PAB and PAD.
point A
point B
point D
point P
translate C A B D
prove { equal { signed_area3 P A C } { sum { signed_area3 P A B } { signed_area3 P A D } } }
