# Lists the definitions of a file by name, each with the sentence above it. Named one file after another.
# A definition without a sentence is told on the standard error, and the exit code is 1.

FNR == 1 {
    place = FILENAME
    sub(/^crates\//, "", place)
    printf "\n### `%s`\n\n", place
    told = ""
    if ($0 ~ /^-- /) { print substr($0, 4); print "" }
    next
}

# a heading within the file
/^-- ----/ { told = ""; next }

/^ *-- / {
    line = $0
    sub(/^ *-- /, "", line)
    told = told == "" ? line : told " " line
    next
}

# a definition: its name is the word behind what it is, and `pub`
/^(abbrev|unfoldable|record|data) / {
    name = $2 == "pub" ? $3 : $2
    if (told == "") {
        print place ": " name " has no sentence" > "/dev/stderr"
        missing = 1
    }
    printf "- `%s`: %s\n", name, told
    told = ""
    next
}

# how an operator is read belongs to the operator
/^infix/ { next }

{ told = "" }

END { exit missing }
