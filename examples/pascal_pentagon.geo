% Pascal's theorem for a pentagon in a circle (classical; so a tangent is found with the ruler alone): the tangent at
% A meets the side CD, AB meets DE, and BC meets EA in three points of one line.
point O
point A
oncircle B O A
oncircle C O A
oncircle D O A
oncircle E O A
tratio A1 A O 1
inter X A A1 C D
inter Y A B D E
inter Z B C E A
prove { collinear X Y Z }
