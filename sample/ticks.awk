# The ticks of the sample, one line each as `replay` reads them: Monday 5 November 2018, from 05:29:00, from 19:29:00 and, over midnight,
# from 23:58:45. Traffic on the mainline is at LOS C in the morning and in the evening: the plan meters it at 05:30 and no longer at 19:30.
# At 05:30:39.5 a bus calls, until it has passed, at 05:30:46.0. At 05:31:10 a fire truck calls, for 25 s. At night traffic is at LOS D,
# which is metered off peak too, and past midnight: the entry of 19:30 stays in force on Tuesday. A small generator varies the traffic, so
# that every run gives the same lines.
function chance(k) {
    seed = (seed * 421 + 1663) % 7875
    return seed % k == 0
}

# Preemption.
function fire_truck(tenth) {
    return tenth >= truck && tenth < truck + 250 ? 1 : 0
}

# Bypass.
function bus_calls(tenth) {
    return tenth >= bus && tenth <= passes ? 1 : 0
}

# Ticks from a tenth of Monday on. gap: ticks between two vehicles of a mainline lane.
function minutes(first, count, gap,    k, lane, line, passage) {
    for (k = 0; k < count; k++) {
        line = "2018 11 " 5 + int((first + k) / 864000) " " (first + k) % 864000
        for (lane = 0; lane < 2; lane++) {
            if (chance(lane == 0 ? 120 : 80)) waits[lane] = !waits[lane]
            passage = chance(60) ? 1 : 0
            # before the bus nobody passes on its lane
            if (lane == 1 && bus_calls(first + k)) passage = first + k == passes ? 1 : 0
            line = line " " (waits[lane] ? 0 : 1) " " passage
        }
        for (lane = 0; lane < 3; lane++) {
            if (until[lane] <= 0) until[lane] = gap + (chance(2) ? 3 : -3)
            until[lane]--
            line = line " 1 " (until[lane] < 2 ? 95 : 0) " " (until[lane] == 0 ? "1 " 250 - 10 * lane : "0 0")
        }
        print line " " fire_truck(first + k) " " bus_calls(first + k) " 0 0 0 0 0 0"
    }
}

BEGIN {
    seed = 51
    bus = ((5 * 60 + 30) * 60 + 39) * 10 + 5
    passes = ((5 * 60 + 30) * 60 + 46) * 10
    truck = ((5 * 60 + 31) * 60 + 10) * 10
    minutes((5 * 60 + 29) * 600, 2100, 26)
    minutes((19 * 60 + 29) * 600, 2100, 27)
    minutes(864000 - 750, 900, 18)
}
