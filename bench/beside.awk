# Reads lines of seconds, seconds of the processors and KiB of a run of ours, and then of one of the other program's. Prints the least of
# each, and their ratios.
function least(now, was) { return NR == 1 || now < was ? now : was }
function ratio(a, b) { return b > 0 ? sprintf("%.2f", a / b) : "-" }
{ for (i = 1; i <= 6; i++) best[i] = least($i, best[i]) }
END {
  printf "  xfs        %7.3f s  %7.3f s of the processors  %8d KiB\n", best[1], best[2], best[3]
  printf "  xfsprogs   %7.3f s  %7.3f s of the processors  %8d KiB\n", best[4], best[5], best[6]
  printf "  ratio      %7s    %7s                       %8s\n", ratio(best[1], best[4]), ratio(best[2], best[5]), ratio(best[3], best[6])
}
