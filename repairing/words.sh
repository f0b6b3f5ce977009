# What ./repair says: refusals, and the report of a repair.

# What holds no more: the stream, also where it is that of a job.
by_stream() { if [ "$kind" = job ]; then echo 'the stream of a job has, by which it is repaired'; else echo 'a stream has'; fi; }

# What a refusal of a stream or a job means.
meaning() { # NUMBER
    case $1 in
    1) echo 'the level byte is missing or not 2 to 5' ;;
    5) echo "the job's grid is no grid" ;;
    3) echo 'the stream ends within a triangle' ;;
    4) echo "a coordinate lies below the level's range: $(bad_coordinate)" ;;
    24) echo "a coordinate lies above the level's range: $(bad_coordinate)" ;;
    8) echo "the surface has more than 8,192 quads, the most that $(by_stream)" ;;
    9) echo "there are more than 100,000 triangles, the most that $(by_stream)" ;;
    18) echo "the job file is empty, or its table of contents is cut short or counts more than 3 bodies" ;;
    19) echo 'a kind of body is unknown, repeated or out of order' ;;
    20) echo 'the offset or the length of a body is wrong, or bytes stand behind the last' ;;
    *) echo 'an unknown refusal' ;;
    esac
}

# Why an STL file is not repaired.
model_meaning() { # WORDS OF THE PROGRAM
    case $1 in
    'refused 11') echo 'it is the text form of STL: save it as binary STL' ;;
    'refused 10') echo "it is no binary STL file, or cut short: $(wrong_length)" ;;
    'refused 12') echo "a coordinate is no finite number: $(bad_number)" ;;
    'refused 13') echo "at e $e a coordinate comes to more than 2^30 in size: give a smaller --e" ;;
    'refused 4') echo "a coordinate lies below the level's range, $(range_in_units): leave --no-fit out, and the model is moved" ;;
    'refused 24') echo "a coordinate lies above the level's range, $(range_in_units): leave --no-fit out, and the model is moved" ;;
    'refused 8') echo 'the surface has more than 32,768 quads: a smaller --level makes fewer' ;;
    'no triangles') echo 'the file has none to repair' ;;
    'too large')
        if [ "$mode" = c ]; then
            echo "with --e $e the model does not fit the grid of level $level: leave --e out, and the largest that fits is taken"
        else
            echo 'no model may be wider than some 5 * 10^11 units, nor lie further than 10^15 units from 0'
        fi
        ;;
    esac
}

# Runs lines of awk on what is known of a repair: `unit` is what one of the grid's numbers is in the model's units, 2^-e, `cell` the side of a cell.
least='' greatest='' moved='' mode='' inside=0
in_units() { # LINES
    awk -v e="$e" -v level="$level" -v inside="$inside" -v least="$least" -v greatest="$greatest" -v moved="$moved" -v mode="$mode" '
        function units(x) { return sprintf("%.6g unit%s", x, x == 1 ? "" : "s") }
        BEGIN { unit = 2 ^ -e; cell = 2 ^ (19 - level) * unit; '"$1"' }'
}

# The line of a file that was written.
written() { # WORD PLACE FILE
    [ -z "$2" ] || printf '  %-10s %s bytes, %s\n' "$1" "$(wc -c <"$3")" "$2"
}

# The report of a repair.
report() {
    cat <<END
$name: repaired
  level      $level, $((1 << level)) cells a side
  triangles  $triangles
END
    [ "$kind" != stl ] || placed_report
    in_units 'print "  cell       " units(cell) " a side"; print "  thin       walls thinner than about " units(1.5 * cell) \
        ", one and a half cells, are too thin for this grid: they may vanish, or what they enclose be filled"'
    cat <<END
before
  rims       $rims, places where the marked edges did not make a closed surface; an undamaged model can have some
  missing    $ones, faces of grid cells with one marked edge: places where faces of the model are missing
  walls      $threes, faces with three marked edges: places where extra walls meet
after
  flips      $flips, edges whose mark was added or taken away
  inside     $inside of $((row * row * row)) points
END
    in_units 'printf "  volume     %.6g cubic units\n", inside * cell * cell * cell'
    echo "  quads      $quad_count, a closed surface"
    [ -z "$masks" ] || echo "  masks      $row, layer_00.pbm to layer_$(printf %02d $((row - 1))).pbm in $masks"
    written job "$job" "$room/packed"
    written surface "$out" "$room/surface"
}

# How large a model is, and how it stands on the grid.
placed_report() {
    in_units '
        split(least, low); split(greatest, high); split(moved, by)
        for (a = 1; a <= 3; a++) {
            size = size (a > 1 ? " x " : "") sprintf("%.6g", (high[a] - low[a]) * unit)
            ends = ends (a > 1 ? ", " : "") sprintf("%s %.6g to %.6g", substr("xyz", a, 1), low[a] * unit, high[a] * unit)
            way = way (a > 1 ? " " : "") sprintf("%.6g", by[a] * unit)
        }
        print "  model      " size " units: " ends
        print "  scale      e " e ": one unit of the grid\047s numbers is " (e > 0 ? "1/" 2 ^ e " of a unit" : units(unit)) " of the model"
        if (mode == "k") print "  moved      not at all, as --no-fit says"
        else print "  moved      by " way " units to stand in the middle of the grid; the surface stands where the model stood"'
}

# One line in place of the report.
brief_report() {
    echo "$name: repaired, $triangles triangles, $ones missing, $threes walls, $flips flips, $inside points inside, $quad_count quads${out:+, $out}"
}

# Writes what is to be printed.
write_report() {
    if [ -n "$brief" ]; then write "$room/report" brief_report; else write "$room/report" report; fi
    write "$room/blank" echo
}
