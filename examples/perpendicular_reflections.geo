% Reflections in two perpendicular lines make a half-turn (classical).
point O
point A
tratio B O A 1
point P
reflect Q P O A
reflect R Q O B
prove { midpoint O P R }
