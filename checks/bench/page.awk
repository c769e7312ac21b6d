# Writes FILE into a page, between the two lines that name NAME: awk -v name=NAME -v file=FILE
$0 == "<!-- end of " name " -->" { inside = 0 }
!inside { print }
$0 == "<!-- " name ", as bin/measure writes it -->" {
    while ((getline line < file) > 0) print line
    inside = 1
    found = 1
}
END { if (!found || inside) exit 1 }
