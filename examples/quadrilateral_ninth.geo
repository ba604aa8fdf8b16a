% The points at thirds of opposite sides of a quadrilateral are joined. The joins cut one another in three equal parts
% (classical; the middle one of the nine fields has a ninth of the area). Here: the point at a third of one join is on
% another.
point A
point B
point C
point D
lratio K A B div { 1 } { 3 }
lratio M D C div { 1 } { 3 }
lratio L A D div { 1 } { 3 }
lratio N B C div { 1 } { 3 }
lratio X K M div { 1 } { 3 }
prove { collinear L X N }
