main = do a
          b
