% The area w of a pentagon satisfies w^2 - p w + q = 0, where p is the sum of the areas of the five triangles of three
% consecutive corners and q that of the products of neighbouring ones (Carl Friedrich Gauss, 1823).
point A
point B
point C
point D
point E
prove { equal { sum { sum { sum { sum { sum { sub { mult { sum { sum { signed_area3 A B C } { signed_area3 A C D } }
                                                               { signed_area3 A D E } }
                                                         { sum { sum { signed_area3 A B C } { signed_area3 A C D } }
                                                               { signed_area3 A D E } } }
                                                  { mult { sum { sum { sum { sum { signed_area3 A B C }
                                                                                 { signed_area3 B C D } }
                                                                           { signed_area3 C D E } }
                                                                     { signed_area3 D E A } }
                                                               { signed_area3 E A B } }
                                                         { sum { sum { signed_area3 A B C } { signed_area3 A C D } }
                                                               { signed_area3 A D E } } } }
                                            { mult { signed_area3 A B C } { signed_area3 B C D } } }
                                      { mult { signed_area3 B C D } { signed_area3 C D E } } }
                                { mult { signed_area3 C D E } { signed_area3 D E A } } }
                          { mult { signed_area3 D E A } { signed_area3 E A B } } }
                    { mult { signed_area3 E A B } { signed_area3 A B C } } }
              { 0 } }
