% proved: the side BC goes through the touching point D; I is the incenter of ABC
point I
point D
oncircle E I D
oncircle F I D
midpoint K E F
inverse A K I D
midpoint L F D
inverse B L I D
midpoint M D E
inverse C M I D
prove { collinear B D C }
