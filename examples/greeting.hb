-- writes "Habit" and a line feed
port console :: Out (Bit 8) at X80000000

main :: M Unit
main = do
  writePort console X48
  writePort console X61
  writePort console X62
  writePort console X69
  writePort console X74
  writePort console X0A
