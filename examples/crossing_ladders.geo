% Two crossing ladders (Mahavira, 9th century) lean across an alley: from A to the top D of a wall over B, and from B
% to the top C of a wall over A. They cross at the height XF with 1/XF = 1/AC + 1/BD, however wide the alley is; here
% multiplied by AC.
point A
point B
param a
param b
tratio C A B a
pratio D B A C b
inter X A D B C
foot F X A B
prove { equal { sratio A C F X } { sum { 1 } { sratio A C B D } } }
