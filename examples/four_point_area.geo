% For any point P the signed areas PAB, PBC and PCA add up to ABC (August Ferdinand Moebius, 1827).
point A
point B
point C
point P
prove { equal { sum { sum { signed_area3 P A B } { signed_area3 P B C } } { signed_area3 P C A } }
              { signed_area3 A B C } }
