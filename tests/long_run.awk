# Prints a run file of some 10,000 samples: two lists of event channel 0, of which one has a prescaler of 4 and is stopped for a third
# of the run, and one list of event channel 1. Rings are small, and four times the transmitter is late, so that samples are dropped.
function hex(n, digits) { return sprintf("%0" digits "x", n) }
function word(n) { return hex(n % 256, 2) hex(int(n / 256) % 256, 2) }
function add(step) { steps = steps (steps == "" ? "" : ",\n  ") "\"" step "\"" }
BEGIN {
  setup = "\"d6\", \"d5000300\""
  for (l = 0; l < 3; l++) setup = setup ", \"d400" word(l) "01\""
  for (l = 0; l < 3; l++) setup = setup ", \"d300" word(l) "0001\""
  for (l = 0; l < 3; l++) {
    setup = setup ", \"e200" word(l) "0000\", \"e1ff0200" (l == 1 ? "02" : "00") "000000\""
    setup = setup ", \"e010" word(l) (l == 2 ? "0100" : "0000") (l == 1 ? "04" : "01") "00\""
  }
  for (l = 0; l < 3; l++) setup = setup ", \"de01" word(l) "\""
  for (k = 0; k < 8000; k++) {
    add("trigger 0 " 10 * k " " word(k) word(k))
    if (k % 5 == 4) add("trigger 1 " 10 * k + 3 " " word(k) word(k))
    if (k == 2700) add("stop 0 1")
    if (k == 5300) add("start 0 1")
    late = (k > 900 && k < 1000) || (k > 3000 && k < 3300) || (k > 6100 && k < 6150) || (k > 7200 && k < 7400)
    if (!late || k % 40 == 0) { add("pump"); add("pump") }
  }
  print "channels = 2\nimage_len = 4\ncaps = [4, 2]\nsetup = [" setup "]\nsteps = [" steps "]"
}
