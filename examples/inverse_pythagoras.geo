% In a right triangle the reciprocals of the squares of the legs add up to that of the altitude (classical): 1/CA^2 +
% 1/CB^2 = 1/CD^2.
point C
point A
param r
tratio B C A r
foot D C A B
prove { equal { sum { div { 1 } { pythagoras_difference3 C A C } } { div { 1 } { pythagoras_difference3 C B C } } }
              { div { 1 } { pythagoras_difference3 C D C } } }
