% Three circles pass through A and B touching BC at B, through B and C touching CA at C, and through C and A touching
% AB at A; they meet in one point (August Leopold Crelle, 1816; Henri Brocard, 1875).
point A
point B
point C
line a B C
line b C A
line c A B
perp p B a
perp q C b
perp r A c
med u A B
med v B C
med w C A
intersec X p u
intersec Y q v
intersec Z r w
cc T X Y B
prove { same_length Z T Z A }
