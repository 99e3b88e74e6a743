#!/bin/bash
# Counts the places of the code that docs/DESIGN-PASS.md counts. At the top of a checkout:
#   tools/count_places.sh            each count, by crate, and the sums of the points
#   tools/count_places.sh 1b 4c ..   the places of these counts
# A command prints its places as FILE:LINE: TEXT. It goes by text alone, so a place stays found where today's form has the old name.

sources='crates/*/src/*.rt'

# Each function with its contract on one line; its head alone; its head with what it requires; each struct and enum on one line.
functions() {
    git ls-files "$sources" | xargs awk '
        /^ *(pub(\([a-z]+\))? )?(extern "C" )?fn / { head = ""; on = 1; at = FILENAME ":" FNR ":" }
        on { head = head " " $0 }
        on && (/^ *\{$/ || (/\{$/ && !/ensures|requires/)) { gsub(/ +/, " ", head); print at head; on = 0 }'
}
heads() { functions | sed -E 's/ (requires|ensures) .*//; s/ \{$//'; }
requires() { functions | sed -E 's/ ensures .*//'; }
types() {
    git ls-files "$sources" | xargs awk '
        /^(pub(\([a-z]+\))? )?(struct|enum) / { head = ""; on = 1; at = FILENAME ":" FNR ":" }
        on { sub(/ *\/\/.*/, ""); head = head " " $0 }
        on && /^\}/ { gsub(/ +/, " ", head); print at head; on = 0 }'
}
lines() {
    local pattern patterns=()
    for pattern; do patterns+=(-e "$pattern"); done
    git grep -nE "${patterns[@]}" -- "$sources"
}

# Takes the command of a count from its input.
declare -A title command
order=()
count() { order+=("$1"); title[$1]=$2; command[$1]=$(cat); }

count 1a 'own enums of the shape of Option or Result' <<'END'
types | sed 's/pub(crate)/pub/' | grep 'enum ' | grep -E '\(u8\)|[{,] [A-Z][A-Za-z]+,.*\(|\(.*[{,] [A-Z][A-Za-z]+,'
END
count 1b 'structs with an answer (0 or a refusal number) and the rest beside it' <<'END'
types | grep -E 'answer: u(8|32)'
END
count 1c 'other structs with a flag, or a number for a state, beside a value' <<'END'
types | grep -E ': bool,|phase: u8'
END
count 1d 'functions that are handed a refusal number as u8, or a flag with its value' <<'END'
heads | grep -E '[( ](answer|refusal|number): u8|[( ](given|there): (u8|bool)'
END
count 1e 'functions that answer a refusal number, or 0' <<'END'
heads | grep -E -e 'fn ([a-z_]*(refusal|fault)|fault_in)[(<].* -> u(8|32)$' \
    -e 'fn (check_(pairs|group)|give_(oldest|in)|lsq_(replay|(load_address|store_address|store_data)_in))[(<].* -> u(8|32)$'
END
count 1f 'refusal constants' <<'END'
lines '^pub const [A-Z_]+: u8 = '
END
count 1g 'command numbers of the case programs' <<'END'
lines '^(pub\(crate\) )?const [A-Z_]+: usize = [0-9]+;' | grep _cases/src/ | grep -v MOST_
END
count 1h 'numbers or letters for kinds and fields, in place of an enum' <<'END'
{ heads | grep -E '[( ](kind|field|letter): u[0-9a-z]+|fn numbers_of\(event'; types | grep 'kinds: \[u8'; }
END
count 1i 'numbers that stand for "none" or "did not fit"' <<'END'
heads | grep -E -e 'fn (hexadecimal|place|next_byte|oldest_without|first_unmarked)\(' \
    -e 'fn (next_ready|named|lsq_(text|event_count|memory_length)|put_(bytes|number|line|fault)|span_meant)\('
END
count 1j 'uses: a refusal tested or handed on by hand, where `?`, `map_err` or `From` would do' <<'END'
lines '(answer|fault) (!=|==) 0' '[( ](number|two)_refusal\([a-z]+\)\)' \
    '(Refused|Unwritten|NoHeader|NoEvent|BadEvent|NoTwo|TableFault|TraceFault|NoRoom)\([a-z_]+\) =>'
END

# Twins: A differ in a type, a size, a constant or a side alone; B go the same steps, or share a part that a function could have.
twins() {
    local all class group pattern
    all=$(heads; types)
    while read -r class group pattern; do
        grep -E "$pattern" <<<"$all" | sed -E "s/^([^ ]+) (.*)/\1 $class $group \2/"
    done <<'GROUPS'
A case-words _cases/src/show.rt.* fn words\(
A case-number _cases/src/show.rt.* fn number\(
A case-lists _cases/src/show.rt.* fn (numbers|bytes)\(|ordering_cases/src/show.rt.* fn front\(
A case-wide _cases/.* fn wide(_byte)?\(
A case-word _cases/.* fn word\(
A case-byte _cases/src/(records|tables).rt.* fn byte\(
A case-first-n (table|queue)_cases/src/show.rt.* fn front\(
A case-first-n _cases/.* fn (read_in|table_in|table_of|put_in|served|written)\(.*(count|length|room|lengths): 
A case-first-n _cases/.* fn (readied|look_at_trace|look_at_both)\(.*(count|length|room|lengths): 
A case-untouched _cases/.* fn (untouched|show_kept|rest)\(.*(out|buffer|places): &\[u8\]
A case-same queue_cases/src/same.rt.* fn same_(groups|pairs|entries|memory|ports)\(
A case-group-of _cases/src/(records|tables).rt.* fn group_of\(
A case-with-pair _cases/src/(records|tables).rt.* fn with_pair\(
A case-table-with _cases/src/(records|tables).rt.* fn table_with\(
A case-set-table queue_cases/src/records.rt.* fn set_table\(|table_cases/src/tables.rt.* fn set\(
A case-named _cases/src/command.rt.* fn named\(
A case-takes _cases/src/command.rt.* fn takes\(
A case-follow _cases/src/main.rt.* fn follow\(
A case-main _cases/src/main.rt.* fn main\(
A case-kept queue_cases/src/run.rt.* fn kept(_queue)?\(
A case-print printed_cases/src/texts.rt.* fn print(_short)?\(
A least _cases/.* fn (within|length)\(
A buffer fn (no_(answers|values|memory|line)|(large|file|text|short|page)_buffer)\(
A write-out (play|page)/src/main.rt.* fn write_out\(
A show-text (play|page)/src/main.rt.* fn show\(
A play-page-main (play|page)/src/main.rt.* fn main\(
A print-text (printed|paged)/src/text.rt.* fn print(_page)?\(
A have-room fn have_room\(
A event-of fn event_of\(
A refusal-of fn (number|two)_refusal\(
A no-table (table|grouping)/.* fn no_(table|group)\(\)
A pairs-type struct (Pairs|PairList) \{
A both-type struct (Group|Ports|NewGroup|GroupSoFar|Sides) \{
A unpack-two-bytes fn unpack_(pair|span)\(
A within-most fn (depth|memory)_right\(
A queue-moves queue/src/.* fn (activate|take|write)\(self
A queue-gives queue/src/.* fn (load_address|store_address|store_data)\(self
A live-step live/.* fn live_(step|service)\(
A c-gives live/.* fn lsq_(load_address|store_address|store_data)_in\(
A c-moves live/.* fn lsq_(activate|take|write)_in\(
A c-ready live/.* fn lsq_ready_(loads|stores)_in\(
A c-written live/.* fn lsq_(write_(table|event|number)|page)\(
A c-told exports/.* fn lsq_(trace_fault|event_count|memory_length)\(
B refused-record fn (no_pairs_read|refused|serve_refused|unopened|unprepared|unplayed)\(|table/src/read.rt.* fn no_group\(answer
B accepted-record fn (accepted|played)\(
B played replay/src/playing.rt.* fn (stepped|unmoved)\(
B put-text (printed|paged)/src/text.rt.* fn put_text\(
B group-at-places grouping/.* fn one_group\(|table/src/read.rt.* fn with_group\(
B queue-fits queue/.* fn (has_room|group_fits)\(
B entry-with queue/src/entries.rt.* fn with_(address|word)\(
B write-in-room (number|trace|table|shift)/src/.* fn write_(number|numbers|table|page)\(
B length-and-put number/src/writing.rt.* fn (number_length|put_fitting)\(
B length-and-put (trace/src/writing|table/src/write).rt.* fn (numbers|pairs|group|table)_length[(<]
B length-and-put (trace/src/writing|table/src/write).rt.* fn put_(numbers|pairs|group|table)[(<]
B put-if-fits number/.* fn put_(bytes|number)\(
B script-ends script/.* fn (wrong|end)_(numbers|bytes)\(
B script-reads script/.* fn (numbers_of|bytes_of|place)\(
B case-one-line _cases/src/main.rt.* fn one_line\(
B case-command-line _cases/src/main.rt.* fn command_line\(
B case-read-table (table|queue)_cases/src/run.rt.* fn read_table\(
B case-append printed_cases/src/files.rt.* fn (append|replace|repeat)\(|ordering_cases/src/pairs.rt.* fn (append|replace|repeat)\(
B case-calls queue_cases/src/(calls|shift_record).rt.* fn (plain|serve|write|take)\( ?out
GROUPS
}
count 2 'twins: functions and types that differ little, by group' <<'END'
twins
END

count 2c '(inside one function) the same steps twice or more, for loads and for stores or arm by arm' <<'END'
heads | grep -E -e 'table/.* fn (pack_group|unpack_group|group_at|check_group)[(<]' \
    -e 'table/.* fn (read_group|group_made|with_group|group_length|put_group)[(<]' \
    -e 'grouping/.* fn (with_access|count_offsets|one_group)\(' \
    -e 'queue/.* fn (has_room|group_fits|fresh_frame|retire|outline_of|frame_after)\(' \
    -e 'queue/.* fn (activate_in|sound_in|sound_of|give)[(<]' -e 'replay/.* fn play_event<' -e 'trace/.* fn read_header\(' \
    -e 'queue_cases/.* fn (show_queue|with_number)\(' -e 'printed_cases/src/main.* fn obey\('
END

count 3a 'every `while` and `loop`, each looked at' <<'END'
lines '^ *(while |loop \{)'
END
count 3b '`for` loops, iterator chains' <<'END'
lines '^ *for ' '\.(iter|iter_mut|chars|bytes|lines|split|zip|map|filter|fold|enumerate)\(' \
    '\.(position|all|any|sum|rev|take|copy_from_slice|fill)\(' | grep -v 'queue\.take('
END
count 3c 'recursion that counts' <<'END'
heads | grep -E 'fn put_digits\('
END

count 4a 'equality by hand' <<'END'
functions | grep -E 'fn same_[a-z]+\('
END
count 4b 'order and arithmetic that the library has: least, difference, saturating, wrapping' <<'END'
{ heads | grep -E 'fn (within|length|distance|one_more|less)\('; lines 'std::num::wrapping_'; }
END
count 4c 'conversions by hand (`From`, `TryFrom`)' <<'END'
heads | grep -E -e 'fn (event_of|unpack(_pair|_span|_group)?|pack(_pair|_group|ed)?|bit|outline_of|side_of|frame_after)\(' \
    -e 'fn (kind_of|mark_of|stepped|unmoved|value_(given|word)|live_(step|service|written)|wide(_byte)?|word|entry_of)\(' \
    -e 'fn (group_of|whole|header_of|both|first_four|hexadecimal)\(' \
    -e 'fn (numbers_of\(event|words\(n|byte\(value|digit\(value: u8)' | grep -v packing.rt:.*pack
END
count 4d 'a field copied into a local by hand (`let a = x.a;`)' <<'END'
python3 - <<'PYTHON'
import re, subprocess
for name in subprocess.getoutput("git ls-files 'crates/*/src/*.rt'").split():
    lines, function = open(name).read().split("\n"), ""
    for number, line in enumerate(lines, 1):
        function = (re.match(r' *(?:pub(?:\([a-z]+\))? )?(?:extern "C" )?fn (\w+)', line) or [0, function])[1]
        if m := re.match(r" +let (?:mut )?(\w+) = \w+(?:\.\w+)+;$", line):
            print(f"{name}:{number}: fn {function} {m[1]}")
PYTHON
END
count 4d2 'a field copied by its name into another record (no `..base` anywhere)' <<'END'
lines '^ +([a-z_]+): [a-z_]+\.\1( as [a-z0-9]+)?,$'
END
count 4e 'printing by hand in the case programs' <<'END'
heads | grep -E '_cases/src/.* fn ' | grep -E 'show.rt:| fn (show_[a-z]+|event_at|handed_on|kept|kept_queue|count_one|share|sound)\(' |
    grep -vE ' fn (wide|wide_byte|digit|serial_at|access)\('
END
count 4f 'decimal text by hand into lent buffers (printed run, page)' <<'END'
heads | grep -E '(printed|shift|number/src/texts)[a-z/.]*:?.* fn (put_[a-z]+|digit_or_blank)\('
END
count 4g 'the empty value by hand (`Default`, one constant)' <<'END'
{ heads | grep -E -e 'fn (no_(table|pairs|takes)|none|fresh|unopened)\(' -e 'grouping.* fn no_group\('
  lines 'let none = Counts|counts: Counts \{$'; }
END

count 6a 'structs with a buffer and its length beside' <<'END'
types | grep -E 'count: (u8|usize|u32),.*: \[|length: usize,.*\[|\[.*length: usize|struct (Lengths|Queue) \{'
END
count 6b 'functions that are handed a run and how much of it counts' <<'END'
heads | grep -E -e 'entries: &(mut )?\[u64\], (held|n|gone): ' \
    -e '(bytes|data|values|memory|numbers|buffer|places|trace|file): &(mut )?\[u(8|32)\], (mut )?(count|length|room|n|first): usize' \
    -e '(buffer|trace|places): &(mut )?\[u8\], (mut )?(lengths|from): (Lengths|usize)' \
    -e 'fn (put_in|written|bytes_kept|page_front)\(' | grep -vE 'paged/|replay/|show.rt.* fn written'
END
count 6c 'parallel arrays' <<'END'
{ types | grep -E 'takes: \[|kinds: \['
  heads | grep -E 'given: &(mut )?\[u8\], values: &(mut )?\[u32\]'
  lines '^const (NAMES|SHAPES):|let mut given = '; }
END
count 6d 'lists searched by hand, and sets kept as arrays of marks' <<'END'
{ heads | grep -E -e 'fn (place|next_byte|most|oldest_without|first_unmarked|names_port|has_port|more_before)[(<]' \
    -e '(seen|seen_loads|marks|placed): (&(mut )?)?(\[bool|Ports)'; types | grep -E ': \[bool; 32\]'; }
END
count 6e 'arenas of indices' <<'END'
types | grep -E 'struct (Span|Group|Table) \{'
END
count 6f 'texts as bytes (`&str`)' <<'END'
heads | grep -E '[( ](text|words|word|name|names|line|shapes|store|load): &(mut )?\[u8\]'
END

count 7a 'a flag that says which step or kind' <<'END'
heads | grep -E '(storing|is_load|of_table): bool'
END
count 7b 'a `match` or `if` on a kind that runs another step' <<'END'
lines 'match (kind|argument|mark|kind_of\(argument\)|field) \{' \
    'if (kind == 0|kind < 1|[36] < kind|storing|of_table|is_load|found\.phase == [01]) \{'
END
count 7c 'functions that are handed a command number' <<'END'
heads | grep -E 'command: usize'
END
count 7c2 'where a command number is dispatched: ladders of `if command <`, matches with an arm `_`' <<'END'
lines 'if command (<|==) |match (command|place)\b'
END
count 7d '(also at 2 or 3) the same frame with another step: a closure or `impl Fn`' <<'END'
heads | grep -E -e 'queue/.* fn (groups_fit|entries_right|none_conflict|names_port|has_port|oldest_without|retiring)[(<]' \
    -e 'ordering/.* fn (all_listed|first_unmarked)\(' -e 'grouping.* fn names_accesses\(' \
    -e 'script.* fn (next_byte|numbers_of|bytes_of|place)\(' \
    -e 'queue/src.* fn (activate|take|write|serve_counted|ready_into|sound)\(self' -e 'queue/.* fn give\(queue' \
    -e 'queue/.* fn (activate|take|write|serve|ready|give)_in<' -e 'fn (count_events|play_all|record_events)\(' \
    -e '(printed|paged)/.* fn (put_text|print|print_page)\(' -e '(play|page)/.* fn (write_out|show)\(' \
    -e '_cases/src/main.* fn (follow|one_line)\('
END
count 7e 'tables of functions, closures, `impl Fn`, `dyn`' <<'END'
lines '\bdyn\b|\bFn(Mut|Once)?\(|: fn\(|[(,=] \|[a-z_, ]*\|'
END

count F1 'a span lies inside the 32 places (`Inside`, `GroupInside`)' <<'END'
requires | grep -E '\b(Group)?Inside\b'
END
count F2 '`RuleRight`: the loads that offsets of stores go by are inside and rise' <<'END'
requires | grep -E '\bRuleRight\b'
END
count F3 'a table or group has at most 16 (`count ≤ 16`)' <<'END'
requires | grep -E 'count ≤ 16'
END
count F4 'a count of entries is no more than their run is long' <<'END'
requires | grep -E '≤ length (load_|store_)?entries'
END
count F5 '`Checked outline ..`: the parts passed the 40 test' <<'END'
requires | grep -E '\bChecked\b'
END
count F6 '`numbers.count ≤ 4` (also said in the ensures of `numbers_of`)' <<'END'
functions | grep -E 'numbers.count ≤ 4|result.count ≤ 4'
END
count F7 '`serials.count` below or up to 64' <<'END'
requires | grep -E '(serials|found).count (<|≤) 64'
END
count F8 'at most 64 pairs, each naming an access (`Listed`)' <<'END'
requires | grep -E 'Listed accesses pairs|pairs.count ≤ 64'
END
count F9 '`looking.number` below the greatest number' <<'END'
requires | grep -E 'looking.number <'
END
count F10 'the bytes to put fit behind a place (`.. ≤ length out.old`)' <<'END'
requires | grep -E '≤ length out.old'
END
count F11 'three buffers taken together as `record { answers ..; given ..; values .. }` or `lent ..`' <<'END'
functions | grep -E 'record \{ answers = answers|lent memory'
END
count F12 '`frame_of outline groups.now load_places.now store_places.now`' <<'END'
functions | grep -E 'frame_of outline'
END
count F13 'for every table: `frame_with table outline`' <<'END'
functions | grep -E 'frame_with table outline'
END
count F14 'both runs have 64 numbers (`whole`)' <<'END'
functions | grep -E '\bwhole (q|load|own)'
END
count F15 '`queue_of frame loads.. stores..`' <<'END'
functions | grep -E 'lsq_.* q = queue_of frame'
END
count F16 '`groups_in count groups.now loads.now stores.now`' <<'END'
functions | grep -E 'groups_in count groups.now'
END
count F17 '`pairs_of loads.now stores.now group`' <<'END'
functions | grep -E 'pairs_of loads.now stores.now'
END
count F18 '`list_of places.now pairs`' <<'END'
functions | grep -E 'list_of (load_)?places.now'
END
count F19 'what is read is `drop at bytes.now`' <<'END'
functions | grep -E 'drop at bytes.now'
END
count F20 '`Puts`/`PutIfFits out.old .. result out.new`' <<'END'
functions | grep -E 'Puts out.old|PutIfFits out.old'
END
count F21 '`HasWritten (.. out.old) result out.new`, in those for C: `done = .. out.old`' <<'END'
functions | grep -E 'HasWritten|let done = '
END
count P1 'outline, groups, load_places, store_places' <<'END'
heads | grep -E 'outline: Outline, groups: '
END
count P2 'count, groups, loads, stores (the arrays of a table)' <<'END'
heads | grep -E "count: u8, groups: &'a"
END
count P3 'group, loads, stores (places)' <<'END'
heads | grep -E "group: Group, loads: &'a"
END
count P4 'load_entries, store_entries (or own, other; loads, stores)' <<'END'
heads | grep -E '(load_entries|own_entries|loads): &(mut )?\[u64\], (store_entries|other_entries|stores): '
END
count P5 'frame, loads, stores' <<'END'
heads | grep -E 'frame: Frame, loads: &(mut )?\[u64\]'
END
count P6 'answers, given, values (or given, values)' <<'END'
heads | grep -E 'given: &(mut )?\[u8\], values: &(mut )?\[u32\]'
END
count P7 'table, trace (bytes of both files)' <<'END'
heads | grep -E 'table: &(mut )?\[u8\], trace: &(mut )?\[u8\]'
END
count P8 'bytes (or trace), at (or from)' <<'END'
heads | grep -E '(bytes|trace): &\[u8\],.* ?(at|from): usize'
END
count P9 'out, at' <<'END'
heads | grep -E 'out: &mut \[u8\], at: usize'
END
count P10 'places, pairs (a span of them)' <<'END'
heads | grep -E "places: &('a )?\[u16; 32\], (pairs|loads): Span"
END
count P11 'entries, held (or n, or gone and left)' <<'END'
heads | grep -E 'entries: &(mut )?\[u64\], (held|n|gone): '
END
count P12 'load_depth, store_depth, first, memory_length: the fields of `trace::Header`' <<'END'
heads | grep -E 'load_depth: u(8|32), store_depth: u(8|32)'
END
count P13 'storing, stores, places and span of the loads' <<'END'
heads | grep -E 'storing: bool'
END
count P14 'kept, port, value' <<'END'
heads | grep -E 'kept: ShiftRecord, port: u32'
END
count P15 'looking, word' <<'END'
heads | grep -E 'looking: Looking, word: '
END
count P16 'accesses, pairs' <<'END'
heads | grep -E 'accesses: (usize|u32), pairs: Precedences'
END
count P17 'memory, counts' <<'END'
heads | grep -E 'memory: &(mut )?\[u32\], counts: '
END
count P18 'run, command' <<'END'
heads | grep -E 'run: Run, command: usize'
END
count P19 'command, numbers' <<'END'
heads | grep -E 'command: usize, numbers: \['
END
count P20 'out, run' <<'END'
heads | grep -E 'out: &mut impl Write, (mut )?run: Run'
END

shown() { eval "${command[$1]}" | grep '^crates/' | sort -u; }
by_crate() {
    awk -F/ '{ many[$2]++ } END { for (crate in many) print crate, many[crate]; print "~all", NR + 0 }' | sort |
        sed 's/^~//' | paste -sd, | sed 's/,/, /g'
}
if [ $# -gt 0 ]; then
    for id; do shown "$id"; done
    exit
fi

for id in "${order[@]}"; do
    printf '%s %s\n    %s\n' "$id" "${title[$id]}" "$(shown "$id" | by_crate)"
done
sum() { printf 'point %s\n    %s\n' "$1" "$(for id in "${@:2}"; do shown "$id"; done | cut -d: -f1,2 | sort -u | by_crate)"; }
sum 1 1a 1b 1c 1d 1e 1f 1g 1h 1i
sum 2 2
sum 3 3a
sum 4 4a 4b 4c 4d 4d2 4e 4f 4g
repeated=()
for id in "${order[@]}"; do
    if [[ $id == [FP]* && $(shown "$id" | wc -l) -ge 3 ]]; then repeated+=("$id"); fi
done
printf 'point 5: facts and groups of parameters of three functions or more: %s\n' "${#repeated[@]}"
sum '5, their functions' "${repeated[@]}"
sum 6 6a 6b 6c 6d 6e 6f
sum 7 7a 7b 7c 7c2

answers='crates/*/proofs/*/Answers.antt'
printf 'point 8: files of answers: %s\n' "$(git ls-files "$answers" | wc -l)"
printf 'point 8: answers\n    %s\n' "$(git grep -nE '^(abbrev )?pub [^ ]+ : goal\.' -- "$answers" | by_crate)"
printf 'point 8: answers of one word: %s\n' "$(git grep -nE '^[^ ]+ c = (refl|search rules|c\.[a-z_A-Z0-9.-]+)$' -- "$answers" | wc -l)"
python3 - <<'PYTHON'
import collections, re, subprocess
files = lambda at: subprocess.check_output(["git", "ls-files", at], text=True).split()
text = lambda name: re.sub(r"--.*", "", open(name).read())

# what a `let` of an answer says, more than once
said = collections.Counter()
for name in files("crates/*/proofs/*/Answers.antt"):
    for part in re.split(r"\n(?=(?:abbrev )?(?:pub )?\S+ : )", text(name)):
        begun = []
        for m in re.finditer(r"(?<![\w.·'₀-₉-])(let|in)(?![\w'₀-₉-])", part):
            if m[1] == "let":
                begun.append(m.end())
            elif begun:
                said[" ".join(part[begun.pop() : m.start()].split())] += 1
often = [n for n in said.values() if n > 1]
print(f"point 8: lets said more than once: {sum(often)}, {len(often)} different")

# lemmas whose statement names nothing that the repository defines
NAME, alone = r"[^\W\d][\w'₀-₉-]*", 0
for name in files("crates/*/proofs/*.antt"):
    if name.endswith(("/Invariants.antt", "/Lib.antt")) or (name.endswith("/Answers.antt") and name.count("/") > 3):
        continue
    whole, own, module = text(name), set(), ""
    for m in re.finditer(r"^use Rattle\.(?!std\.)\S*?\.\{([^}]*)\}", whole, re.M):
        own |= {word.strip().split(" as ")[-1].strip() for word in m[1].split(",")}
    body = re.sub(r"^use .*$", "", whole, flags=re.M)
    own |= {m[1] for m in re.finditer(r"^ *(?:abbrev )?(?:pub )?(?:record |data |module )(" + NAME + ")", body, re.M)}
    own |= {m[1] for m in re.finditer(r"^ *abbrev (?:pub )?(" + NAME + ")", body, re.M)}
    lines = body.split("\n")
    for i, line in enumerate(lines):
        if line and not line.startswith(" "):
            module = line if line.startswith("module _") else ""
        m = re.match(r"^( {0,2})(?:pub )?(" + NAME + r") : (.*)$", line)
        if not m or (m[1] and not module) or m[2] in ("lanes", "lane_of"):  # these two are definitions
            continue
        statement, j = m[3], i + 1
        while j < len(lines) and re.match("^" + m[1] + r"  +\S", lines[j]):
            statement, j = statement + " " + lines[j].strip(), j + 1
        alone += not set(re.findall(NAME, statement + " " + module)) & own
print(f"point 8: lemmas in the library's words alone: {alone}")
PYTHON
