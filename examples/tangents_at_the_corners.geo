% The tangents to the circumcircle at the corners of a triangle meet the opposite sides in three points of one line
% (the Lemoine axis; 19th century).
point O
point A
oncircle B O A
oncircle C O A
tratio T A O 1
tratio U B O 1
tratio V C O 1
inter X A T B C
inter Y B U C A
inter Z C V A B
prove { collinear X Y Z }
