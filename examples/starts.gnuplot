# Draws the starts of a pump by day and quarter hour, from the text of cardsheets. A day without a sheet stays white.
#
#     cardsheets examples/month.card > month.csv
#     gnuplot -e "csv = 'month.csv'; pump = 3; picture = 'starts.png'" examples/starts.gnuplot
#
# A row for each day from the first to the last sheet of the pump. Where a day has two sheets the later one in the file is seen.
if (!exists("csv") || !exists("pump") || !exists("picture")) {
    print "usage: gnuplot -e \"csv = 'FILE'; pump = N; picture = 'FILE.png'\" starts.gnuplot"
    exit status 2
}
set datafile separator comma
set datafile columnheaders
# The date of a sheet of the pump; other sheets are passed over.
date(any) = column("pump") == pump ? strptime("%Y-%m-%d", stringcolumn("date")) : NaN
day = 24 * 3600

stats csv using (date(0)) nooutput
if (!exists("STATS_records") || STATS_records == 0) {
    print sprintf("%s: no sheet of pump %d", csv, pump)
    exit status 1
}
first = STATS_min
last = STATS_max
rows = (last - first) / day + 1

# In pixels; docs/picture looks for the quarter hours there.
width = 900.
left = 130
right = 770
top = 40
bottom = 60
row = rows > 100 ? 6 : 20
height = top + bottom + row * rows
set lmargin at screen left / width
set rmargin at screen right / width
set tmargin at screen 1 - top / height
set bmargin at screen bottom / height

set terminal png size width, height font "sans,11"
set output picture
set title sprintf("Starts of pump %d in each quarter hour", pump)
set xlabel "hour of the day"
set xrange [0:24]
set xtics 0, 2, 24 format "%02.0f:00" out nomirror
set ydata time
set yrange [last + day / 2:first - day / 2]
set ytics day * ceil(18. / row) * (rows > 100 ? 3 : 1) format "%Y-%m-%d" timedate out nomirror
set nomytics
set cblabel "starts, 127 is 127 or more"
set cbrange [0:*]
set palette defined (0 "#e9eef3", 1 "#fdd49e", 2 "#fc8d59", 3 "#d7301f", 4 "#7f0000")
set style fill solid noborder
unset key

# The counts stand behind the four columns slot, date, pump and changed.
hour(quarter) = quarter / 4.
plot for [quarter = 0:95] csv using (hour(quarter)):(date(0)):(hour(quarter)):(hour(quarter + 1)) \
    :(date(0) - day / 2):(date(0) + day / 2):(column(5 + quarter)) with boxxyerror fillcolor palette
set output
