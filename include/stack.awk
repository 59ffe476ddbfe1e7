# Reads off compiled code how many bytes of stack each function can need, its own return address counted: of all ways
# through its instructions the deepest, with what it calls. What it reads is `objdump -r` and then `objdump -dr
# --no-show-raw-insn` of one archive; what it prints is a line for each function, its name and its bytes. A function of
# another archive counts as the bytes in `outside`, its return address among them, and its name is printed with the word
# `outside`. A jump by a table of the function's own constants is followed to every place in the table. Where code does
# anything that cannot be followed here, that is said and the exit status is 1: any other jump or call to a place worked
# out as it runs, a stack pointer set to something unknown, two depths at one place, a function that calls itself.

function unread(f, why) {
    print f ": " why > "/dev/stderr"
    failed = 1
    exit 1
}

# The number that hexadecimal digits stand for; of sixteen that begin with f, the negative one.
function number(digits,    i, n) {
    sub(/^0x/, "", digits)
    if (length(digits) == 16 && digits ~ /^ffffffff/) return number(substr(digits, 9)) - 4294967296
    for (i = 1; i <= length(digits); i++) n = n * 16 + index("0123456789abcdef", substr(digits, i, 1)) - 1
    return n
}

# The bytes by which an instruction lowers the stack pointer.
function lowers(f, o, a) {
    if (o == "push") return 8
    if (o == "pop") return a == "%rsp" ? unread(f, "it pops the stack pointer") : -8
    if (o ~ /^(pushf|popf|enter|leave)/ || (o ~ /^xchg/ && a ~ /(^|,)%[er]?sp(,|$)/)) unread(f, "it has " o " " a)
    if (a !~ /(^|,)%[er]?spl?$/ || o ~ /^(cmp|test)/) return 0
    if (o !~ /^(sub|add)$/ || a !~ /^\$0x[0-9a-f]+,%rsp$/) unread(f, "it sets the stack pointer by " o " " a)
    sub(/^\$/, "", a)
    sub(/,.*/, "", a)
    return o == "sub" ? number(a) : -number(a)
}

# At instruction i of f the stack is d bytes deep; where this is news, the instruction is to be followed.
function reach(f, i, d) {
    if (!((f, i) in op)) unread(f, "it runs past its end or jumps out of itself")
    if (((f, i) in depth) && depth[f, i] != d) unread(f, "it has two depths at one place")
    if (!((f, i) in depth)) todo[f, ++open[f]] = i
    depth[f, i] = d
}

# The name in an address such as `name+0x1c`; what is added to it is left in `added`.
function named(address,    at) {
    at = match(address, /[-+]0x[0-9a-f]+$/)
    added = at ? (substr(address, at, 1) == "-" ? -1 : 1) * number(substr(address, at + 1)) : 0
    return at ? substr(address, 1, at - 1) : address
}

function deeper(f, d) {
    if (d > deepest[f]) deepest[f] = d
}

# What is called from a place with d bytes on the stack goes below them.
function calls(f, i, d,    to) {
    to = rel[f, i]
    if (arg[f, i] ~ /^\*/ || to == "") unread(f, "it calls or jumps to a place that is not in the code")
    deeper(f, d + need(to))
}

# The instruction that loads the table by which the jump at i goes, or 0. A table is used by four instructions:
# `lea TABLE(%rip),%B`, `movslq (%B,%I,4),%R`, `add %B,%R` and `jmp *%R`. The first three stand together; between them
# and the jump there may be some that leave %R alone.
function table_load(f, i,    to, base) {
    to = substr(arg[f, i], 2)
    if (to !~ /^%r[a-z0-9]+$/) return 0
    while (--i > 2 && arg[f, i] !~ (",%" parts(to) "$"))
        if (op[f, i] !~ /^(lea|mov|movabs|movb|movl|movq|movzbl|xor)$/) return 0
    base = arg[f, i]
    sub(/,.*/, "", base)
    if (i <= 2 || op[f, i] != "add" || base !~ /^%r/ || base == to || arg[f, i] != base "," to) return 0
    if (op[f, i - 1] != "movslq" || arg[f, i - 1] !~ ("^\\(" base ",%r[a-z0-9]+,4\\)," to "$")) return 0
    return op[f, i - 2] == "lea" && arg[f, i - 2] == "0x0(%rip)," base && ((f, i - 2) in section) ? i - 2 : 0
}

# A pattern for the names of a 64-bit register and of its lower parts.
function parts(register,    name) {
    name = substr(register, 3)
    return name ~ /^[0-9]/ ? "r" name "[dwb]?" : "[er]?(" name "|" substr(name, 1, 1) "[lh]|" name "l)"
}

# From the jump at i, where the stack is d bytes deep, to every place in its table. The table begins where the code
# loads it from, and ends where the next that is loaded begins, or with its section; each of its numbers is the way from
# its beginning to a place in f. What stands between the load and the jump is kept, for nothing else may lead there.
function follow_table(f, i, d,    load, from, start, at) {
    load = table_load(f, i)
    if (!load) unread(f, "it calls or jumps to a place that is not in the code")
    while (i > load) inner[f, ++inners[f]] = i--
    from = section[f, load]
    start = begins[f, load]
    if (!((from, start) in entry)) unread(f, "its table is not there")
    for (at = start; ((from, at) in entry) && (at == start || !((from, at) in beginning)); at += 4) {
        if (entry[from, at] != ".text." f) unread(f, "its table leads out of it")
        jump(f, place[f, entry_added[from, at] - (at - start)], d)
    }
}

# A jump to instruction i of f, where the stack is d bytes deep.
function jump(f, i, d) {
    jumped[f, i] = 1
    reach(f, i, d)
}

# Follows one instruction. Only functions that call nothing may use the 128 bytes below the stack pointer; who uses any
# of them is taken to use them all.
function follow(f, i,    o, a, d) {
    o = op[f, i]
    a = arg[f, i]
    d = depth[f, i] + lowers(f, o, a)
    deeper(f, d + (a ~ /-0x[0-9a-f]+\(%rsp/ ? 128 : 0))
    if (o ~ /^call/) calls(f, i, d)
    if (o ~ /^ret/ && d != 8) unread(f, "it returns with something left on the stack")
    if (o ~ /^(ret|ud2|hlt)/) return
    if (o == "jmp" && a ~ /^\*/) follow_table(f, i, d)
    else if (o ~ /^j/ && (rel[f, i] != "" || a ~ /^\*/)) calls(f, i, d - 8)
    else if (o ~ /^j/) jump(f, place[f, number(a)], d)
    if (o !~ /^jmp/) reach(f, i + 1, d)
}

# The bytes that f needs, worked out once.
function need(f,    k) {
    if (f in needs) return needs[f]
    if (!(f in known)) return leaves(f)
    if (f in begun) unread(f, "it calls itself")
    begun[f] = 1
    reach(f, 1, 8)
    while (open[f] > 0) follow(f, todo[f, open[f]--])
    for (k = 1; k <= inners[f]; k++)
        if ((f, inner[f, k]) in jumped) unread(f, "it jumps in between the load of a table and its use")
    return needs[f] = deepest[f]
}

function leaves(f) {
    if (!(f in abroad)) print f, "outside"
    abroad[f] = 1
    return outside
}

/^RELOCATION RECORDS FOR / {
    records = substr($4, 2)
    sub(/\]:$/, "", records)
    next
}
/^Disassembly of section / { records = "" }
records != "" {
    if (records !~ /^\.rodata/ || $2 != "R_X86_64_PC32") next
    at = number($1)
    if ((records, at) in entry) unread(records, "there are two of this name")
    entry[records, at] = named($3)
    entry_added[records, at] = added
    next
}
/^[0-9a-f]+ <.*>:$/ {
    f = substr($0, index($0, "<") + 1)
    sub(/>:$/, "", f)
    if (f in known) unread(f, "there are two of this name")
    known[f] = 1
    names[++count] = f
    next
}
$2 ~ /^R_X86_64_/ {
    if (op[f, n[f]] == "lea" && $2 == "R_X86_64_PC32") {
        section[f, n[f]] = named($3)
        begins[f, n[f]] = added + 4
        beginning[section[f, n[f]], added + 4] = 1
    }
    if ($2 !~ /^R_X86_64_(PLT32|PC32)$/ || op[f, n[f]] !~ /^(call|j)/) next
    to = $3
    if (to !~ /-0x4$/) unread(f, "it calls a place inside " to)
    sub(/-0x4$/, "", to)
    sub(/^\.text\./, "", to)
    rel[f, n[f]] = to
    next
}
/^ *[0-9a-f]+:\t/ {
    at = $1
    sub(/:$/, "", at)
    i = ++n[f]
    place[f, number(at)] = i
    skip = $2 ~ /^(lock|rep|repz|repnz|bnd|notrack|data16|cs)$/ ? 3 : 2
    op[f, i] = $skip
    arg[f, i] = $(skip + 1)
}
END {
    if (failed) exit 1
    if (outside == "" || count == 0) unread("stack.awk", "there is no code, or nothing is said of outside functions")
    for (k = 1; k <= count; k++) print names[k], need(names[k])
}
