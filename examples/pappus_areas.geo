% Pappus' theorem on areas (Pappus of Alexandria, 4th century): parallelograms stand on AB and CA; their outer sides
% meet at P. The parallelogram on BC whose other side is AP has the sum of their areas.
point A
point B
point C
point U
translate U1 A U B
point V
translate V1 A V C
inter P U U1 V V1
translate L A P B
prove { equal { signed_area3 C B L } { sum { signed_area3 A B U } { signed_area3 C A V } } }
