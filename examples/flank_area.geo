% Squares stand outside on the sides AB and AC of a triangle. The triangle of A and the neighbouring corners has the
% area of ABC (classical; Vecten, 1817).
point A
point B
point C
tratio P A B -1
tratio Q A C 1
prove { equal { signed_area3 A Q P } { signed_area3 A B C } }
