-- reads two bytes and writes their sum
port rx :: In (Bit 8) at X80000000
port tx :: Out (Bit 8) at X80000004

main :: M Unit
main = do
  a <- readPort rx
  b <- readPort rx
  writePort tx (a + b)
