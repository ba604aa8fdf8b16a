% A product at the incircle (International Mathematical Olympiad 1998, problem 5): the incircle of a triangle touches
% BC, CA and AB at K, L and M. The line through B parallel to MK meets LM at R and LK at S. Then the product of the
% vectors IR and IS is the square of the radius, so that the angle RIS is acute.
point I
point K
oncircle L I K
oncircle M I K
midpoint N M K
inverse B N I K
translate T M K B
inter R B T L M
inter S B T L K
prove { equal { pythagoras_difference3 R I S } { pythagoras_difference3 I K I } }
