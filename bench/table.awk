# data/table1.txt as a table for plain C, in mm2/s: awk -f bench/table.awk data/table1.txt >table.h
BEGIN { print "static const struct { double l, h; } rows[] = {" }
!/^#/ { printf "{%s, %s},\n", $2, $3; n++ }
END { print "};\nenum { ROWS = " n " };" }
