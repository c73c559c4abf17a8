# Puts what was measured into a document: behind a line <!-- NAME --> the lines up to <!-- end --> become those of the file NAME in the folder parts.
# Where there is no such file they stay. A table stands between lines of ```.
/^<!-- [a-z_]+ -->$/ && $2 != "end" {
    print
    file = parts "/" $2
    if ((getline line < file) <= 0)
        next
    fenced = $2 != "measured"
    if (fenced)
        print "```text"
    do
        print line
    while ((getline line < file) > 0)
    close(file)
    if (fenced)
        print "```"
    inside = 1
    next
}
/^<!-- end -->$/ { inside = 0 }
!inside
