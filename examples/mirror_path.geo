% Light that meets a mirror UV at X goes on as if from the mirror image of where it came from: its angles with the
% mirror are equal (Heron of Alexandria, Catoptrics). B is on the line from the image of A through X.
point X
point U
point A
symmetric V U X
reflect A1 A X U
online B A1 X
prove { equal { mult { signed_area3 U X A } { pythagoras_difference3 B X V } }
              { mult { signed_area3 B X V } { pythagoras_difference3 U X A } } }
