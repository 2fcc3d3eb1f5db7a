#!/usr/bin/env bash
# Draws a ride's altitude, speed and heart rate over time: picture.sh RIDE PICTURE.png
# It draws what the ride has; of a file that is refused or truncated, what comes before.
# It needs sqlite3; gnuplot, with its terminal pngcairo and a font; and the program: where FIT says, at the top of this repository, or as fit.
set -euo pipefail
if [ $# != 2 ]; then
    sed -n '2,4s/^# //p' "$0" >&2
    exit 2
fi
needed=()
for tool in sqlite3 gnuplot; do
    command -v "$tool" >/dev/null || needed+=("$tool")
done
if [ ${#needed[@]} != 0 ]; then
    echo "picture.sh: there is no ${needed[*]}, which it needs; Debian's packages sqlite3 and gnuplot-nox have them" >&2
    exit 1
fi
if ! gnuplot -e 'set terminal pngcairo' 2>/dev/null; then
    echo 'picture.sh: gnuplot here has no terminal pngcairo, which it needs' >&2
    exit 1
fi
fit=${FIT:-$(dirname "$(readlink -f "$0")")/../fit}
[ -n "${FIT-}" ] || [ -x "$fit" ] || fit=$(command -v fit || true)
if ! command -v "${fit:-fit}" >/dev/null; then
    echo "picture.sh: there is no program ${fit:-fit}; FIT says where it is" >&2
    exit 1
fi
work=$(mktemp -d)
trap 'rm -rf "$work"' EXIT
status=0
"$fit" table -- "$1" >"$work/table.csv" || status=$?
case $status in
0) ;;
1) echo "picture.sh: only what comes before is drawn" >&2 ;;
*) exit "$status" ;;
esac

# What sqlite3 and gnuplot read and write is in one folder, so that no name has a blank or a quote.
cd "$work"
sqlite3 ride.db >points <<'SQL'
.mode csv
.import table.csv record
.mode list
.separator ' '
.nullvalue NaN
select strftime('%s', timestamp), nullif(altitude, ''), nullif(speed, '') * 3.6, nullif(heart_rate, '') from record where timestamp like '%Z';
SQL
title=$(sqlite3 ride.db "select strftime('%Y-%m-%d', min(timestamp)) || coalesce(', ' || nullif(round(max(nullif(distance, '') + 0) / 1000, 1), 0) || ' km', '') from record where timestamp like '%Z'")
# a panel for each quantity that the ride has
has() { awk -v c="$1" '$c != "NaN" { n = 1; exit } END { exit !n }' points; }
panels=()
for column in 2 3 4; do
    if has "$column"; then panels+=("$column"); fi
done
if [ ${#panels[@]} = 0 ]; then
    echo "picture.sh: nothing to draw in $1" >&2
    exit 1
fi
{
    cat <<PLOT
set terminal pngcairo size 800,$((110 + 150 * ${#panels[@]})) font 'sans,10'
set output 'picture.png'
set datafile missing 'NaN'
set multiplot layout ${#panels[@]},1 title '$title' margins 0.09,0.97,0.12,0.92 spacing 0.04
set xdata time
set timefmt '%s'
set format x ''
set grid
unset key
PLOT
    for panel in "${panels[@]}"; do
        if [ "$panel" = "${panels[-1]}" ]; then printf '%s\n' "set format x '%H:%M'" "set xlabel 'UTC'"; fi
        case $panel in
        2) printf '%s\n' "set ylabel 'altitude, m'" "set yrange [*:*]" && colour='#8c6d31' ;;
        3) printf '%s\n' "set ylabel 'speed, km/h'" "set yrange [0:*]" && colour='#1f77b4' ;;
        4) printf '%s\n' "set ylabel 'heart rate, bpm'" "set yrange [*:*]" && colour='#d62728' ;;
        esac
        echo "plot 'points' using 1:$panel with lines lw 1.5 lc rgb '$colour'"
    done
} | gnuplot
cd "$OLDPWD"
cat "$work/picture.png" >"$2"
