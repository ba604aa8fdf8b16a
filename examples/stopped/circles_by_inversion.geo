% Inversion takes four points of a circle that does not pass through the centre to four points of a circle (19th
% century).
point O
point R
point M
point A
oncircle B M A
oncircle C M A
oncircle D M A
inverse A1 A O R
inverse B1 B O R
inverse C1 C O R
inverse D1 D O R
prove { concyclic A1 B1 C1 D1 }
