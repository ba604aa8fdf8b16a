% The Gergonne point (Joseph Gergonne, 19th century): the lines from the corners of a triangle to the points where its
% incircle touches the opposite sides meet in one point. The corners are the poles of the chords between these points.
point I
point D
oncircle E I D
oncircle F I D
midpoint K E F
midpoint L F D
midpoint M D E
inverse A K I D
inverse B L I D
inverse C M I D
inter G A D B E
prove { collinear C F G }
