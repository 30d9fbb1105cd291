-- reads a byte and a mask, and writes what the operators make of both
port rx :: In (Bit 8) at X80000000
port tx :: Out (Bit 8) at X80000004

main :: M Unit
main = do
  value <- readPort rx
  mask <- readPort rx
  writePort tx (value .&. mask)
  writePort tx (value .|. mask)
  writePort tx (value .^. mask)
  writePort tx (value - mask)
