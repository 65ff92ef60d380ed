# The periods of a replay as a table: `awk -f periods.awk TICKS REPLAYED`. A row for each `poll` line: date and time of the tick that completed
# the period, and the period's serial; of each metered lane the passages and the greens begun (pass1, green1, ..); of each mainline lane the
# vehicles, the occupied milliseconds and whether it was good (veh1, ms1, good1, ..); then over the good lanes how many they are, their flow
# in vehicles an hour per lane, their occupancy in percent and their speed in km/h, all rounded down, - where no lane is good, and for the
# speed where no vehicle was timed on one. The speed comes from the travel times of the ticks that were accepted; the `speeds` lines, which
# have each lane's own, are passed over.
function hex(digits,    k, value) {
    for (k = 1; k <= length(digits); k++) value = 16 * value + index("0123456789abcdef", substr(digits, k, 1)) - 1
    return value
}

# The record's next number of so many bytes.
function next_number(bytes,    value) {
    value = hex(substr(record, place, 2 * bytes))
    place += 2 * bytes
    return value
}

# The next cell of the row, under that heading.
function put(name, cell) {
    column++
    heading[column] = name
    cells[rows, column] = cell
    if (length(name) > width[column]) width[column] = length(name)
    if (length(cell) > width[column]) width[column] = length(cell)
}

# A tick that was accepted, of so many metered lanes: the vehicles that it timed on lanes that worked, and their milliseconds.
function time_vehicles(tick, n,    words, lanes, lane, place) {
    lanes = (split(tick, words, " ") - 12 - 2 * n) / 4
    for (lane = 1; lane <= lanes; lane++) {
        place = 2 * n + 4 * lane
        if (words[place + 1] == 1 && words[place + 3] == 1 && words[place + 4] > 0) {
            timed[lane]++
            millis[lane] += words[place + 4]
        }
    }
}

# In tenths of a km/h, rounded down, in whole numbers alone.
function tenths_of(vehicles, milliseconds,    tenths) {
    tenths = 219600 * vehicles
    tenths = (tenths - tenths % milliseconds) / milliseconds
    return int(tenths / 10) "." tenths % 10
}

function period(line, poll,    n, m, lane, vehicles, occupied, good, lanes, all_vehicles, all_occupied, all_timed, all_millis, tenths) {
    record = poll
    place = 1
    rows++
    column = 0
    put("date", date[line])
    put("time", time[line])
    put("serial", sprintf("%.0f", next_number(4)))
    n = next_number(2)
    for (lane = 1; lane <= n; lane++) {
        put("pass" lane, next_number(2))
        put("green" lane, next_number(2))
    }
    m = next_number(2)
    for (lane = 1; lane <= m; lane++) {
        put("veh" lane, vehicles = next_number(2))
        put("ms" lane, occupied = next_number(2))
        put("good" lane, good = next_number(2))
        lanes += good
        all_vehicles += good * vehicles
        all_occupied += good * occupied
        all_timed += good * timed[lane]
        all_millis += good * millis[lane]
    }
    split("", timed)
    split("", millis)
    tenths = lanes ? int(all_occupied / (30 * lanes)) : 0
    put("good", lanes + 0)
    put("flow", lanes ? int(all_vehicles * 120 / lanes) : "-")
    put("occupancy", lanes ? int(tenths / 10) "." tenths % 10 : "-")
    put("speed", all_timed ? tenths_of(all_timed, all_millis) : "-")
}

BEGIN {
    if (ARGC != 3) {
        print "usage: awk -f periods.awk TICKS REPLAYED" >"/dev/stderr"
        wrong = 1
        exit 2
    }
}

FILENAME == ARGV[1] {
    date[FNR] = sprintf("%04d-%02d-%02d", $1, $2, $3)
    ticks[FNR] = $0
    time[FNR] = sprintf("%02d:%02d:%04.1f", $4 / 36000, $4 / 600 % 60, $4 % 600 / 10)
    next
}

# A tick's line has the tick's number, which is that of its line among the ticks.
$1 ~ /^[0-9]+$/ {
    line = $1
    if ($2 == 0) time_vehicles(ticks[line], length($5))
}
$1 == "poll" { period(line, $2) }
$1 == "refused" || $1 == "line" { end = $0 }

# The text at the right end of its column.
function padded(text, column) {
    while (length(text) < width[column]) text = " " text
    return text
}

# A line of the table; row 0 is the heading.
function row_text(row,    column, text) {
    for (column = 1; column in width; column++)
        text = text (column == 1 ? "" : " ") padded(row == 0 ? heading[column] : cells[row, column], column)
    return text
}

END {
    if (wrong) exit 2
    if (rows == 0) print "no period was completed"
    for (row = 0; rows > 0 && row <= rows; row++) print row_text(row)
    if (end != "") print end
}
