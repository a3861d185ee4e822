# Makes a C file from nesfoal.h: each call that it declares, by way of host.c, to the library's function under the name shipped_ and its own.
# A pointer and the count after it is what is lent, to read where it is const; a pointer without a count is a result.
function fail(what) { print "calls.awk: " what > "/dev/stderr"; failed = 1; exit 1 }
function made(head, list,    name, upper, n, i, parts, a, b, kind, body) {
    name = head; sub(/^uint32_t /, "", name)
    upper = toupper(substr(name, 9))
    n = split(list, parts, / *, */)
    for (i = 1; i <= n; i++) {
        a = parts[i]; b = a; sub(/.*[ *]/, "", b)
        if (a ~ /^(const )?u?int[0-9]+_t \*[a-z_]+$/) {
            if (i < n && parts[i + 1] ~ /^size_t [a-z_]+$/) {
                kind = a ~ /^const / ? "READ" : "LENT"
                i++; count = parts[i]; sub(/.* /, "", count)
            } else {
                if (a ~ /^const /) fail(name ": what is read without a count: " a)
                kind = "RESULT"; count = "1"
            }
            body = body "        {" kind ", 0, (void *)(uintptr_t)" b ", " count ", sizeof *" b "},\n"
        } else if (a ~ /^(uint32_t|bool) [a-z_]+$/) body = body "        {NUMBER, " b ", 0, 0, 0},\n"
        else fail(name ": an argument of a kind that is not known: " a)
    }
    printf "extern void shipped_%s(void);\n", name
    printf "%s(%s)\n{\n", head, list
    printf "    static struct call call = {\"%s\", shipped_%s, NESFOAL_STACK_%s, 0, 0, 0, 0};\n", name, name, upper
    printf "    const struct argument arguments[] = {\n%s    };\n", body
    print "    return varied(&call, arguments, sizeof arguments / sizeof *arguments);\n}\n"
    made_some = 1
}
BEGIN { print "#include \"nesfoal.h\"\n#include \"host.h\"\n" }
/^uint32_t nesfoal_/ { text = ""; inside = 1 }
inside { text = text " " $0 }
inside && /\);/ {
    inside = 0
    gsub(/[ \t]+/, " ", text); sub(/^ /, "", text); sub(/\);.*/, "", text)
    made(substr(text, 1, index(text, "(") - 1), substr(text, index(text, "(") + 1))
}
END { if (!failed && !made_some) fail("no call") ; exit failed }
