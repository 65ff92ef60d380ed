# A replay for the eye: `awk -f strip.awk TICKS REPLAY`. The lamps of each lane over time, a letter for half a second (. dark, R red,
# Y yellow, G green), a line where they stay as they are, and between them what changed: the entry in force or the day type, what is
# wanted, a preemption call, the interval, the bypass. A blank line stands where the clock jumps; midnight is no jump.
function clock(tenth) {
    return sprintf("%02d:%02d:%04.1f", tenth / 36000, tenth / 600 % 60, tenth % 600 / 10)
}

# How many days a date is after the last of 1999; every fourth year is leap.
function day_number(year, month, day) {
    year -= 2000
    return 365 * year + int((year + 3) / 4) + before[month] + (month > 2 && year % 4 == 0) + day
}

# Whether no lane changed its colour since the strip began.
function steady(    lane) {
    for (lane = 1; lane <= lanes; lane++) if (strip[lane] ~ /[^.]/ && strip[lane] !~ /^(R+|Y+|G+)$/) return 0
    return 1
}

function flush_strip(    lane, colours) {
    if (width == 0) return
    if (steady()) {
        colours = ""
        for (lane = 1; lane <= lanes; lane++) colours = colours " " colour[substr(strip[lane], 1, 1)]
        printf "%s  lanes%s for %.1f s, sign %s\n", clock(begun), colours, width / 2, substr(sign, 1, 1) == "W" ? "on" : "off"
    } else {
        for (lane = 1; lane <= lanes; lane++) printf "%-10s  lane %d  %s\n", lane == 1 ? clock(begun) : "", lane, strip[lane]
    }
    for (lane = 1; lane <= lanes; lane++) strip[lane] = ""
    sign = ""
    width = 0
}

function say(text) {
    flush_strip()
    printf "%s  %s\n", clock(tenth[$1]), text
}

BEGIN {
    split("initialization|pre-metering dark|pre-metering green|startup warning|startup green|startup yellow|startup red|metering|closing|shutdown red", names, "|")
    split(". dark R red Y yellow G green", pairs, " ")
    for (k = 1; k < 8; k += 2) colour[pairs[k]] = pairs[k + 1]
    split("0 31 59 90 120 151 181 212 243 273 304 334", before, " ")
    wish = interval = entry = day = ""
    calling = 0
    bypass = "none"
}

# preemption and the bus call stand before the two commands of three words each
FNR == NR {
    tenth[FNR] = $4
    tenths[FNR] = 864000 * day_number($1, $2, $3) + $4
    preemption[FNR] = $(NF - 7)
    next
}

FNR == 1 { next }

$1 == "poll" || $1 == "speeds" { next }

$1 == "refused" || $1 == "line" { print; exit }

{
    if ($1 == 1 || tenths[$1] != tenths[$1 - 1] + 1) {
        flush_strip()
        print ""
    }
    lanes = length($5)
    if ($9 != entry || $8 != day) say("plan entry " $9 " in force (" $8 ")")
    if ($12 " " $13 != wish) say("wanted: " ($12 == "meter" ? "metering at " $13 ", a green every " $14 / 10 " s" : $12) ($11 > 0 ? ", by level " $11 : ""))
    if (preemption[$1] != calling) say(preemption[$1] == 1 ? "preemption: a fire truck calls" : "preemption ends")
    if ($3 != interval) say("interval " $3 ", " names[$3 + 1])
    if ($16 != bypass) say($16 == "none" ? "bypass ends" : "bypass: " (bypass == "none" ? "a bus calls, " : "") $16)
    calling = preemption[$1]
    bypass = $16
    entry = $9
    day = $8
    wish = $12 " " $13
    interval = $3
    if (tenth[$1] % 5 == 0) {
        if (width == 0) begun = tenth[$1]
        for (lane = 1; lane <= lanes; lane++) {
            letter = substr($5, lane, 1)
            strip[lane] = strip[lane] (letter == "D" ? "." : letter)
        }
        sign = sign ($7 == 1 ? "W" : ".")
        if (++width >= 100 && !steady()) flush_strip()
    }
}

END { flush_strip() }
