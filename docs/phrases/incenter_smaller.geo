% proved: the touching points E, F first; A is where their tangents meet, and the tangents from A are equally long
point I
point D
oncircle E I D
oncircle F I D
midpoint K E F
inverse A K I D
prove { same_length A E A F }
