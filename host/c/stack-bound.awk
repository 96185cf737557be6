# The stack that each entry of the archive needs at most, by its machine code: reads `objdump -d -r -M intel --no-show-raw-insn` of the
# archive and prints a line 'ENTRY BYTES' for each luspemaro_ function.
#
# A function needs what it pushes and takes from rsp, every such place of it counted once, and for each call a return address and what
# the callee needs. Only `-v recursive=NAME` may call itself, at most `-v levels=N` times within itself. A call of the C library counts
# as nothing: its need is the platform's. A large frame is taken page by page: r11 is set to where rsp is to go, and a loop takes a page at
# a time until rsp is there; such a frame counts by what r11 is moved. Where the code moves rsp in another way, or another call is indirect or recursive, no bound is
# known, and the exit status is 1.

function wrong(what) { print "stack-bound: " what > "/dev/stderr"; failed = 1 }

/^[0-9a-f]+ <.*>:$/ {
    name = $2
    gsub(/^<|>:$/, "", name)
    frame[name] = 0
    next
}
$2 == "push" { frame[name] += 8 }
$2 == "mov" && $3 == "r11,rsp" { paging = 1; next }
paging && $2 == "sub" && $3 ~ /^r11,0x[0-9a-f]+$/ { frame[name] += hex(substr($3, 7)); next }
paging && $2 == "sub" && $3 == "rsp,0x1000" { next }
paging && $2 == "cmp" && $3 == "rsp,r11" { paging = 0; next }
$2 == "sub" && $3 ~ /^rsp,0x[0-9a-f]+$/ { frame[name] += hex(substr($3, 7)); next }
$2 == "add" && $3 ~ /^rsp,/ { next }
$2 == "call" && $3 !~ /^[0-9a-f]+$/ { wrong(name ": indirect call") }
$2 == "call" && $4 == "<" name ">" { calls[name, name] = 1 }
$2 != "push" && $2 != "pop" && $3 ~ /^rsp(,|$)/ { wrong(name ": " $2 " " $3) }
$2 ~ /^R_X86_64_PLT32$/ {
    callee = $3
    sub(/^\.text\./, "", callee)
    sub(/[-+]0x[0-9a-f]+$/, "", callee)
    calls[name, callee] = 1
}

function hex(digits,    i, n) {
    n = 0
    for (i = 1; i <= length(digits); i++)
        n = 16 * n + index("0123456789abcdef", substr(digits, i, 1)) - 1
    return n
}

# The bytes below a call of the function; the return address is counted where it is called.
function need(name,    key, pair, below, most) {
    if (!(name in frame)) return 0
    if (name in known) return known[name]
    if (name in open) { wrong(name ": recursive"); return 0 }
    open[name] = 1
    most = 0
    for (key in calls) {
        split(key, pair, SUBSEP)
        if (pair[1] != name || (pair[2] == name && name == recursive)) continue
        below = need(pair[2])
        if (below > most) most = below
    }
    delete open[name]
    known[name] = frame[name] + 8 + most
    if (name == recursive) known[name] += levels * (frame[name] + 8)
    return known[name]
}

END {
    for (name in frame)
        if (name ~ /^luspemaro_/) {
            entries++
            # a function without calls may use 128 bytes more, below rsp
            print name, need(name) + 128
        }
    if (entries == 0) wrong("no entry")
    exit failed
}
