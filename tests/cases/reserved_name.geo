point weights
point B
prove { collinear B B B }
