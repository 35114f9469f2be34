module W where { g :: Int; g = 7 }
