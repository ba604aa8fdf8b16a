% Archimedes' theorem on the broken chord (3rd century BC; after al-Biruni): M is the midpoint of the arc from A to C
% over B. The foot F of the perpendicular from M to AB bisects the broken line from A over B to C: with BC turned into
% the line AB, F is the midpoint.
point O
point M
oncircle A O M
reflect C A O M
oncircle B O M
foot F M A B
reflect D C M B
prove { midpoint F A D }
