% spent, spent with the most steps: M is the midpoint of the chord PQ; AB and CD are chords through M, and AD and CB meet PQ in X and Y
point O
point P
oncircle Q O P
midpoint M P Q
oncircle A O P
second B A M O
oncircle C O P
second D C M O
inter X A D P Q
inter Y C B P Q
prove { midpoint M X Y }
