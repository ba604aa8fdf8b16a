% Monge's relation between the triangles of one point and four others (Gaspard Monge, 1809; Hermann Grassmann; Julius
% Pluecker): OAB OCD - OAC OBD + OAD OBC = 0.
point O
point A
point B
point C
point D
prove { equal { sum { sub { mult { signed_area3 O A B } { signed_area3 O C D } }
                          { mult { signed_area3 O A C } { signed_area3 O B D } } }
                    { mult { signed_area3 O A D } { signed_area3 O B C } } }
              { 0 } }
