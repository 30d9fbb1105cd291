{ port tx :: Out (Bit 8) at X80000000; main :: M Unit; main = do { writePort tx X41 } }
