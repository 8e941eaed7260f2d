# Prints a run file whose recording has 10,064,146 bytes: 146 of replies, and of 18,500 samples eight packets each of 64 bytes, in
# frames of 68.
BEGIN {
  setup = "\"d6\", \"d5000100\", \"d400000008\""
  for (k = 0; k < 8; k++) setup = setup sprintf(", \"d3000000%02x01\"", k)
  for (k = 0; k < 8; k++) setup = setup sprintf(", \"e2000000%02x00\", \"e1ff3f0000000000\"", k)
  for (k = 0; k < 61; k++) filling = filling "5a"
  print "channels = 1\nimage_len = 63\ncaps = [1]"
  print "setup = [" setup ",\n  \"e000000000000100\", \"de010000\"]"
  print "steps = ["
  for (n = 0; n < 18500; n++) printf "  \"trigger 0 %d %s%04x\", \"pump\",\n", n, filling, n
  print "]"
}
