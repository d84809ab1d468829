# What schedules/check sees of sketches, of what schedules/show prints, and of the pictures of docs/TOUR.md. It sources this file,
# and has `program`, `rewrite`, `work`, `compare` and the counts `passed` and `failed`.

# make_schedules: each sketch stands for exactly the schedule beside it. With --rewrite the schedule is written anew.
make_schedules() {
    local sketch status
    for sketch in schedules/*/*.sketch; do
        schedules/sketch "$sketch" "$program" >"$work/actual"
        status=$?
        if [ "$rewrite" = yes ] && [ "$status" = 0 ]; then
            cp -- "$work/actual" "${sketch%.sketch}.schedule" || exit 1
        fi
        compare "$sketch" "$status" 0 "${sketch%.sketch}.schedule"
    done
}

headers=('listed a:1 b:1' 'strategy static-quorum 1' 'margin 2' 'deadline 9' 'stable 9' 'shards 10' 'buffer 2' 'threshold 1'
    'limit 1')

# sketch_refuses ANSWER LINE..: a sketch of nine headers and these lines is refused with this answer, and nothing is printed.
sketch_refuses() {
    local answer=$1
    shift
    only_refuses "$answer" "${headers[@]}" "$@"
}

# only_refuses ANSWER LINE..: the same of a sketch of these lines alone.
only_refuses() {
    local answer=$1 status
    shift
    printf '%s\n' "$@" >"$work/wrong.sketch"
    schedules/sketch "$work/wrong.sketch" "$program" >"$work/printed" 2>"$work/told"
    status=$?
    sed 's/^.*: line /line /' "$work/told" | cat "$work/printed" - >"$work/actual"
    echo "$answer" >"$work/wanted"
    compare "the sketch '$*'" "$status" 1 "$work/wanted"
}

refused_sketches() {
    local header='the next header, with a value in its range, is wanted here'
    sketch_refuses 'line 10: no packet was sent yet' 'deliver last'
    sketch_refuses 'line 10: nothing stands after deliver last' 'deliver last 1'
    sketch_refuses 'line 10: after deliver all stands except, apart or nothing' 'deliver all but a:1'
    sketch_refuses 'line 10: an address is wanted, as in: deliver all except a:1' 'deliver all except'
    sketch_refuses 'line 10: a:1#1 is a process: an address is wanted, as in: deliver all apart a:1' 'deliver all apart a:1#1'
    sketch_refuses 'line 10: c:1 is not listed' 'deliver all except a:1 c:1'
    sketch_refuses 'line 10: no process runs' 'tick all 0'
    sketch_refuses 'line 11: the word of the ticks is wanted, as in: tick all 0' 'start a:1#1' 'tick all'
    sketch_refuses 'line 11: the word of the ticks is wanted, as in: tick all 0' 'start a:1#1' 'tick all x'
    sketch_refuses 'line 10: a number of turns from 1 to 1000 is wanted, as in: repeat 3' 'repeat 0' 'end'
    sketch_refuses 'line 10: this repeat has no end' 'repeat 2' 'start a:1#1'
    sketch_refuses 'line 11: this end belongs to no repeat' 'start a:1#1' 'end'
    sketch_refuses 'line 10: nothing stands after end' 'end 1'
    sketch_refuses 'line 11: these are more than 50,000 turns' 'repeat 1000' 'repeat 1000' 'end' 'end'
    sketch_refuses 'line 11: the program refuses "tick b:1#1 0" as S7: the process was never started' 'start a:1#1' 'tick b:1#1 0'
    sketch_refuses 'line 12: the program refuses "start a:1#1" as S4: the process was started before' '# none' 'repeat 2' \
        'start a:1#1' 'end'
    sketch_refuses 'line 12: the program refuses "deliver 9" as S9: no packet of that number was sent' 'start a:1#1' \
        'found a:1#1' 'deliver 9' 'deliver all'
    sketch_refuses 'line 11: the program refuses "delivr all" as S1: this is no line of a sketch or of a schedule' 'start a:1#1' \
        'delivr all'
    only_refuses "line 2: the program refuses it as S2: $header" 'listed a:1' 'deliver all'
    only_refuses "line 3: the program refuses it as S2: $header" 'listed a:1' 'strategy down-all'
    only_refuses "line 2: the program refuses it as S2: $header" ''
}

# A header that may follow the nine ones is no event, and what is wrong with it is told of such a header.
refused_optional_headers() {
    local once='after the nine headers it may stand once, in its order, with a value in its range'
    sketch_refuses "line 10: the program refuses \"weakly\" as S2: $once" 'weakly'
    sketch_refuses "line 10: the program refuses \"weakly 1000001\" as S2: $once" 'weakly 1000001' 'start a:1#1' 'deliver all'
    sketch_refuses "line 12: the program refuses \" weakly  2\" as S2: $once" 'weakly 2' '# again' ' weakly  2' 'tick all 0'
    sketch_refuses 'line 12: the program refuses "weakly 2" as S1: it is a header, and may stand before the first event alone' \
        'weakly 2' 'start a:1#1' 'weakly 2'
    sketch_refuses 'line 11: the program refuses "weaker 2" as S1: this is no line of a sketch or of a schedule' \
        'weakly 2' 'weaker 2'
    only_refuses "line 1: the program refuses \"weakly 2\" as S2: the next header, with a value in its range, is wanted here" \
        'weakly 2' 'listed a:1'
    sketch_refuses "line 10: the program refuses \"role a:1 c:1\" as S2: $once" 'role a:1 c:1' 'start a:1#1'
    sketch_refuses "line 11: the program refuses \"weakly 2\" as S2: $once" 'role b:1' 'weakly 2' 'start a:1#1' 'tick all 0'
    sketch_refuses 'line 12: the program refuses "role a:1" as S1: it is a header, and may stand before the first event alone' \
        'weakly 2' 'start a:1#1' 'role a:1'
}

# A sketch with everything: its comments, its repeats, and what is lost.
a_sketch() {
    {
        printf '%s\n' "${headers[@]}" 'start a:1#1' 'start b:1#1' 'found a:1#1' 'join b:1#1 a:1' 'deliver all except b:1' \
            '# once' 'repeat 2' '' 'repeat 1' '# again' 'join b:1#1 a:1' 'end' 'end' 'deliver last' 'deliver all' 'deliver last'
    } >"$work/right.sketch"
    {
        printf '%s\n' "${headers[@]}" 'start a:1#1' 'start b:1#1' 'found a:1#1' 'join b:1#1 a:1' '# once' '' '# again' \
            'join b:1#1 a:1' 'join b:1#1 a:1' 'deliver 3' 'deliver 2' 'deliver 4' 'deliver 5' 'deliver 6' 'deliver 7' 'deliver 7'
    } >"$work/wanted"
    schedules/sketch "$work/right.sketch" "$program" >"$work/actual"
    compare "a sketch with everything" "$?" 0 "$work/wanted"
}

# A sketch with more headers than nine: what is sent by then is known as without them.
a_sketch_with_optional_headers() {
    {
        printf '%s\n' "${headers[@]}" '# more' ' weakly 2' 'role b:1  a:1' 'start a:1#1' 'start b:1#1' 'found a:1#1' 'repeat 2' \
            'join b:1#1 a:1' 'end' 'deliver all' 'tick all 7' 'deliver last'
    } >"$work/right.sketch"
    {
        printf '%s\n' "${headers[@]}" '# more' ' weakly 2' 'role b:1  a:1' 'start a:1#1' 'start b:1#1' 'found a:1#1' \
            'join b:1#1 a:1' 'join b:1#1 a:1' 'deliver 1' 'deliver 2' 'deliver 3' 'deliver 4' 'deliver 5' 'deliver 6' \
            'tick a:1#1 7' 'tick b:1#1 7' 'deliver 8'
    } >"$work/wanted"
    schedules/sketch "$work/right.sketch" "$program" >"$work/actual"
    compare "a sketch with optional headers" "$?" 0 "$work/wanted"
    # (and again with the schedule beside it, by which replays are saved)
    cp -- "$work/wanted" "$work/right.schedule" || exit 1
    schedules/sketch "$work/right.sketch" "$program" >"$work/actual"
    compare "a sketch with optional headers and its schedule" "$?" 0 "$work/wanted"
    rm -- "$work/right.schedule"
}

# A sketch beside which no schedule stands yet gives the same: what is expected of a packet saves replays, and decides nothing.
a_new_sketch() {
    local name=schedules/partitions/an_even_split_by_majority
    cp -- "$name.sketch" "$work/new.sketch" || exit 1
    schedules/sketch "$work/new.sketch" "$program" >"$work/actual"
    compare "a sketch without its schedule" "$?" 0 "$name.schedule"
}

# A picture in which a packet reaches nobody, comes again, and is lost.
a_picture() {
    cat >"$work/wanted" <<'TEXT'
sequenceDiagram
    participant p1 as b:1
    participant p2 as a:1
    Note over p1: starts
    Note over p1: 1 join to a:1 reaches nobody
    Note over p2: starts
    Note over p2: founds the cluster<br/>update 1 joined a:1
    p1->>p2: 1 join again
    Note over p2: update 2 joined b:1
    p2-xp1: 2 welcome
    Note over p2: sees at the end<br/>version a:1=2<br/>members a:1 joining, b:1 joining
TEXT
    schedules/picture schedules/joining/packet_to_nobody.schedule "$program" >"$work/actual"
    compare "a picture of packet_to_nobody" "$?" 0 "$work/wanted"
}

# A picture of a member that is let in.
a_picture_of_let_in() {
    cat >"$work/wanted" <<'TEXT'
sequenceDiagram
    participant p1 as a:1
    participant p2 as b:1
    participant p3 as c:1
    p3->>p1: 5 join
    Note over p1: update 4 joined c:1
    p1-xp3: 6 welcome
    Note over p1: tick 2<br/>update 5 weakly-up c:1
    p1-xp2: 9 gossip
    Note over p1: sees at the end<br/>version a:1=5<br/>members a:1 up 1, b:1 up 2, c:1 weakly-up
    Note over p2: sees at the end<br/>version a:1=2<br/>members a:1 joining, b:1 joining
TEXT
    schedules/picture --steps 11-12 --without heartbeat schedules/weakly_up/let_in.schedule "$program" >"$work/actual"
    compare "a picture of let_in" "$?" 0 "$work/wanted"
}

# Under a header stands no step, also under one that may follow the nine ones.
shown_under_headers() {
    {
        printf '> %s\n' "${headers[@]}" 'weakly 2' 'role b:1' 'start a:1#1'
        printf '%s\n' '1 start a:1#1' '> weakly 2' 'error 4 S1 line 13'
    } >"$work/wanted"
    printf '%s\n' "${headers[@]}" 'weakly 2' 'role b:1' 'start a:1#1' 'weakly 2' >"$work/headers.schedule"
    schedules/show "$work/headers.schedule" "$program" >"$work/actual"
    compare "schedules/show of optional headers" "$?" 0 "$work/wanted"
}

# What schedules/show prints is the schedule after "> ", and between its lines the output as it is.
shown() {
    local name status
    for name in joining/first_join joining/spaces_comments_and_zeros refusals/unknown_event refusals/weakly_twice \
        refusals/role_after_an_event roles/role_in_another_order weakly_up/let_in; do
        schedules/show "schedules/$name.schedule" "$program" >"$work/shown"
        status=$?
        grep -v '^> ' "$work/shown" >"$work/actual"
        compare "schedules/show of $name" "$status" 0 "schedules/$name.out"
        sed -n 's/^> //p' "$work/shown" >"$work/actual"
        awk '{ sub(/\r$/, ""); print }' "schedules/$name.schedule" >"$work/wanted"
        compare "the lines that schedules/show prints of $name" "$status" 0 "$work/wanted"
    done
}

# write_tour: prints docs/TOUR.md as it has to be. After a line `<!-- schedules/picture WORDS -->` stands what that prints, after
# `<!-- FILE.sketch -->` the file, each as a block; what stood there is passed over.
write_tour() {
    local line kind=none words
    while IFS= read -r line; do
        case $kind:$line in
        none:'<!-- schedules/picture '*' -->' | none:'<!-- schedules/'*'.sketch -->')
            read -ra words <<<"${line//[<>!]/}"
            printf '%s\n' "$line"
            if [[ ${words[1]} == *.sketch ]]; then
                printf '```text\n'
                cat -- "${words[1]}"
            else
                printf '```mermaid\n'
                "${words[@]:1:${#words[@]}-2}" "$program" || echo "schedules/picture: status $?"
            fi
            printf '```\n'
            kind=marked
            ;;
        marked:'```'*) kind=block ;;
        marked:)
            echo
            kind=none
            ;;
        block:'```') kind=none ;;
        block:*) ;;
        *) printf '%s\n' "$line" ;;
        esac
    done <docs/TOUR.md
}

# wrong_layers: prints what is wrong in the picture of the crates in docs/TOUR.md: which crate stands in no layer or in two, which
# arrow goes up or is none in crates.txt, and which line of crates.txt follows from no arrows.
wrong_layers() {
    awk '
        FILENAME == "crates.txt" {
            crate = $1
            sub(/:$/, "", crate)
            if (crate ~ /_tests$/) next
            crates[crate] = 1
            for (word = 2; word <= NF; word++) if ($word ~ /^ak_/) stands[crate, $word] = 1
            next
        }
        /^<!-- crates.txt -->$/ { inside = 1 }
        inside && /^```$/ { inside = 0 }
        inside && $1 == "subgraph" { layer++ }
        inside && NF == 1 && ($1 == "akka" || $1 ~ /^[a-z]+_[a-z_]+$/) {
            if ($1 in level) print $1 " stands in two layers"
            if (!($1 in crates)) print $1 " is no crate of crates.txt"
            level[$1] = layer
        }
        inside && $2 == "-->" {
            if (!(($1, $3) in stands)) print $1 " does not stand on " $3
            if ($1 in level && $3 in level && level[$1] > level[$3]) print $1 " stands on " $3 ", which is above it"
            follows[$1, $3] = 1
        }
        END {
            for (crate in crates) if (!(crate in level)) print crate " stands in no layer"
            for (middle in crates)
                for (upper in crates)
                    if ((upper, middle) in follows)
                        for (lower in crates) if ((middle, lower) in follows) follows[upper, lower] = 1
            for (pair in stands)
                if (!(pair in follows)) {
                    split(pair, names, SUBSEP)
                    print "there is no arrow by which " names[1] " stands on " names[2]
                }
        }' crates.txt docs/TOUR.md
}

tour() {
    write_tour >"$work/actual"
    if [ "$rewrite" = yes ]; then
        cp -- "$work/actual" docs/TOUR.md || exit 1
    fi
    compare "the pictures of docs/TOUR.md" 0 0 docs/TOUR.md
    wrong_layers >"$work/actual"
    compare "the crates in docs/TOUR.md" "$?" 0 /dev/null
}

check_scenarios() {
    refused_sketches
    refused_optional_headers
    a_sketch
    a_sketch_with_optional_headers
    a_new_sketch
    shown
    shown_under_headers
    a_picture
    a_picture_of_let_in
    tour
}
