# The sums and figures of a file in case 1, with no check: for the benchmark of split_year. Numbers are doubles, so products are worked out in two steps.
function low(a, b) { return a < b ? a : b }
function share(a, b) { rest += a * (b % whole) % whole; return int(b / whole) * a + int(a * (b % whole) / whole) }
BEGIN { FS = ";" }
NR == 1 { heading = $0; next }
NR == 2 { begin = $0; kase = $1; next }
NR == 3 { for (i = 1; i <= NF; i++) at[$i] = i; aw = at["AW"]; nb = at["Z1NB"]; ne = at["Z1NE"]; v = at["Z2V"]; e = at["Z2E"]; next }
{ n++; import += $nb; feed += $ne; drawn += $v; given += $e; grid += low($nb, $v); out = low($ne, $e); paid = $aw > 0; stored[paid] += out; direct[paid] += $ne - out }
END {
  plant = drawn - grid; foreign = given > drawn ? given - drawn : 0; whole = drawn + foreign; if (whole == 0) whole = 1
  all = stored[0] + stored[1]; lost = drawn - given
  net = share(grid, all); fs = share(plant, stored[1]); zs = share(plant, stored[0]); fo = share(foreign, all)
  loss = kase == 1 ? int(grid * lost / whole) : 0; levied = import - net - loss; if (levied < 0) levied = 0
  print heading ";N;IMPORT;FEEDIN;NETTABLE;LOSS;LEVIED;FUND_DIRECT;FUND_STORED;FUND_ALL;ZERO_DIRECT;ZERO_STORED;FOREIGN;LOOSE"
  print begin ";" n ";" import ";" feed ";" net ";" loss ";" levied ";" direct[1] + 0 ";" fs ";" direct[1] + fs ";" direct[0] + 0 ";" zs ";" fo ";" int(rest / whole)
}
