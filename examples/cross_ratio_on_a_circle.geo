% The cross-ratio of the lines from a point of a circle to four others does not depend on the point (Jakob Steiner,
% 1832; Michel Chasles): by the areas of triangles with the corners P and Q.
point O
point P
oncircle Q O P
oncircle A O P
oncircle B O P
oncircle C O P
oncircle D O P
prove { equal { mult { mult { mult { signed_area3 P A C } { signed_area3 P B D } } { signed_area3 Q A D } }
                     { signed_area3 Q B C } }
              { mult { mult { mult { signed_area3 P A D } { signed_area3 P B C } } { signed_area3 Q A C } }
                     { signed_area3 Q B D } } }
