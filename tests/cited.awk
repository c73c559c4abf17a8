# The definitions and theorems that a document names: in backticks, behind the file that has them.
#   awk -f tests/cited.awk DOCUMENT..
# A file is named by its whole path, from crates/ or from its crate on, or by the part in which it differs from the one named before it.
# It prints, between tabs:
#   cited ITEM PLACE     the item may be in any of the files that the line names before it, or else in those of the line before
#   file FILE PLACE
{
    fresh = 1
    n = split($0, token, "`")
    for (i = 2; i <= n; i += 2) {
        name = token[i]
        place = FILENAME ":" FNR
        if (name ~ /^crates\/.*\/$/) {
            folder = name
        } else if (name ~ /\.antt$/) {
            sub(/^crates\//, "", name)
            if (name !~ /\//)
                name = folder name
            else if (name ~ /^(specs|proofs)\//)
                name = crate name
            else
                name = "crates/" name
            folder = name
            sub(/[^\/]*$/, "", folder)
            crate = folder
            sub(/(specs|proofs)\/.*/, "", crate)
            if (fresh)
                files = 0
            fresh = 0
            file[++files] = name
            print "file\t" name "\t" place
        } else if (name !~ /[ .\/]/)
            for (k = 1; k <= files; k++)
                print "cited\t" file[k] ":" name "\t" place
    }
}
