% The complete quadrilateral (Pappus of Alexandria): each diagonal is cut harmonically by the other two. The figure
% begins with one diagonal, EF, and a corner A.
point A
point E
point F
online B A E
online D A F
inter C E D F B
inter G A C E F
inter H B D E F
prove { harmonic E F G H }
